" Actors (.cal), networks as XML (.xdf) and networks as text (.nl) of RVC-CAL.
autocmd BufRead,BufNewFile *.cal setfiletype cal
autocmd BufRead,BufNewFile *.xdf setfiletype xml
autocmd BufRead,BufNewFile *.nl setfiletype nl
