#!/usr/bin/env bash
# Makes the inputs of the example `jpeg` by `cjpeg`, and what `djpeg` decodes them to (both of libjpeg-turbo).
#
#     make.sh FOLDER
#
# FOLDER gets `grey.jpg`, `full.jpg`, `half.jpg`, `wide.jpg` and `progressive.jpg`, and in `expected` an image for each. That
# of the last is empty, since it isn't decoded.
set -eu

if [[ $# -ne 1 ]]; then
    echo "usage: make.sh FOLDER" >&2
    exit 2
fi
folder=$1
mkdir -p -- "$folder/expected"

# A picture as PPM: slopes with some noise, a disc with a hard edge, and a corner of dots.
picture() { # width, height
    python3 - "$1" "$2" <<'END'
import sys
width, height = int(sys.argv[1]), int(sys.argv[2])
clip = lambda number: max(0, min(255, number))
noise, samples = 1, []
for y in range(height):
    for x in range(width):
        noise = (noise * 1103515245 + 12345) % 2**31
        grain = (noise >> 16) % 17 - 8
        pixel = [clip(3 * x + 2 * y + 20 + grain), clip(200 - 2 * x + grain), clip(4 * y + grain)]
        if (x - width // 2) ** 2 + (y - height // 2) ** 2 < (min(width, height) // 3) ** 2:
            pixel = [230, 40, 60]
        if x > 3 * width // 4 and y < height // 3:
            pixel = 3 * [255 * ((x + y) % 2)]
        samples += pixel
sys.stdout.buffer.write(b"P6\n%d %d\n255\n" % (width, height) + bytes(samples))
END
}

# One component; three of one size; a second and third of half the size in both directions, with a restart after each row
# of units; and of half the width, with a restart after every two units and tables made for the image.
picture 40 29 | cjpeg -dct int -grayscale -quality 75 >"$folder/grey.jpg"
picture 35 27 | cjpeg -dct int -sample 1x1 -quality 85 >"$folder/full.jpg"
picture 50 37 | cjpeg -dct int -sample 2x2 -quality 75 -restart 1 >"$folder/half.jpg"
picture 41 20 | cjpeg -dct int -sample 2x1 -quality 95 -restart 2B -optimize >"$folder/wide.jpg"
picture 16 16 | cjpeg -dct int -progressive >"$folder/progressive.jpg"

for name in grey full half wide; do
    djpeg -dct int -nosmooth -pnm "$folder/$name.jpg" >"$folder/expected/$name.pnm"
done
: >"$folder/expected/progressive.pnm"
