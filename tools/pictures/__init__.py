"""What tools/draw, tools/timeline and the advice of tools/explain are made of: readers of actors, networks and traces,
writers of pictures, and what tells mistakes apart."""
