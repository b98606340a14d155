#!/usr/bin/env bash
# Makes the inputs of the example `adpcm` by `sox`, and what `sox` decodes them to.
#
#     make.sh FOLDER
#
# FOLDER gets `mono.wav`, `stereo.wav` and `damaged.wav`, and in `expected` a file of samples for each.
set -eu

if [[ $# -ne 1 ]]; then
    echo "usage: make.sh FOLDER" >&2
    exit 2
fi
folder=$1
mkdir -p -- "$folder/expected"

# A tone that rises, and two tones of which one is loud enough to be clipped. `-R` and `-D`: no noise is added.
sox -V1 -R -D -n -r 8000 -c 1 -b 16 -t wav - synth 0.2 sine 300-2500 vol 0.8 |
    sox -V1 -R -D -t wav - -e ima-adpcm "$folder/mono.wav"
sox -V1 -R -D -n -r 11025 -c 2 -b 16 -t wav - synth 0.17 sine 200-4000 square 500 vol 0.99 |
    sox -V1 -R -D -t wav - -e ima-adpcm "$folder/stereo.wav"

# The stereo file with a chunk of odd length before the data, a place in the table of steps that there isn't, and an end in
# the middle of a group.
python3 - "$folder" <<'END'
import sys
wave = open(sys.argv[1] + "/stereo.wav", "rb").read()
at = wave.index(b"data")
head, data = wave[12:at], bytearray(wave[at + 8:at + 8 + 1024 + 333])
data[2] = 200
size = lambda number: number.to_bytes(4, "little")
chunks = head + b"note" + size(5) + b"hello\0" + b"data" + size(len(data)) + data + b"\0" + b"last" + size(4) + b"end!"
open(sys.argv[1] + "/damaged.wav", "wb").write(b"RIFF" + size(4 + len(chunks)) + b"WAVE" + chunks)
END

for name in mono stereo damaged; do
    sox -V1 "$folder/$name.wav" -t raw -e signed -b 16 -L "$folder/expected/$name.raw"
done
