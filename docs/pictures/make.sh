#!/usr/bin/env bash
# Makes the pictures of the manual: each is one frame of a script, which avsserve renders and ffmpeg writes as PNG, twice as
# large. The diagrams are made by diagrams.py. The result is the same unless the program, ffmpeg's test picture or crates.txt changed.
#
#     docs/pictures/make.sh [FOLDER]
#
# They are made in FOLDER, or beside this script.
set -eu -o pipefail
into=$(realpath "${1:-$(dirname "$0")}")
cd "$(dirname "$0")/../.."
[ -n "${AVSSERVE:-}" ] || ./build
program=$(realpath "${AVSSERVE:-bin/avsserve}")
here=$PWD/docs/pictures
room=$(mktemp -d)
trap 'rm -rf "$room"' EXIT
ffmpeg -v error -y -f lavfi -i testsrc2=s=96x72:r=25:d=1 -pix_fmt yuv420p "$room/in.y4m"
cp -r examples "$room"
cd "$room"

# In a picture the clips stand side by side on white.
cat >cells.avs <<'END'
c = Y4MSource("in.y4m").Trim(5, 15)
function Cell(clip c, int w, int h) {
    left = (w - c.Width) / 4 * 2
    top = (h - c.Height) / 4 * 2
    return c.AddBorders(left, top, w - c.Width - left, h - c.Height - top, $EB8080)
}
gap = BlankClip(c, width=8, height=96, color_yuv=$EB8080)
END

# picture NAME FRAME SCALE: the frame of the script on standard input, so many times as large, as NAME.png.
picture() {
    { cat && echo "Trim($2, -1)"; } >one.avs
    "$program" render one.avs | ffmpeg -v error -y -i - -frames:v 1 -vf \
        "scale=iw*$3:ih*$3:flags=neighbor,split[a][b];[a]palettegen=max_colors=64:reserve_transparent=0[p];[b][p]paletteuse=dither=none" \
        -map_metadata -1 -bitexact "$into/$1.png"
}

picture borders 0 2 <<'END'
Import("cells.avs")
StackHorizontal(c.Cell(96, 96), gap, c.Crop(24, 12, 48, 48).Cell(48, 96), gap, c.AddBorders(8, 8, 8, 8).Cell(112, 96), gap, \
    c.LetterBox(12, 12).Cell(96, 96))
END
picture turns 0 2 <<'END'
Import("cells.avs")
StackHorizontal(c.Cell(96, 96), gap, c.FlipHorizontal.Cell(96, 96), gap, c.FlipVertical.Cell(96, 96), gap, \
    c.TurnLeft.Cell(72, 96), gap, c.TurnRight.Cell(72, 96))
END
picture colours 0 2 <<'END'
Import("cells.avs")
StackHorizontal(c.Cell(96, 96), gap, c.Greyscale.Cell(96, 96), gap, c.Invert.Cell(96, 96), gap, c.Limiter(60, 160).Cell(96, 96), \
    gap, c.SwapUV.Cell(96, 96))
END
picture soft 5 2 <<'END'
Import("cells.avs")
blurred = c.GeneralConvolution(0, "1 2 1  2 4 2  1 2 1").GeneralConvolution(0, "1 2 1  2 4 2  1 2 1")
edges = c.GeneralConvolution(128, "0 -1 0  -1 4 -1  0 -1 0").Greyscale
StackHorizontal(c.Cell(96, 96), gap, blurred.Cell(96, 96), gap, edges.Cell(96, 96), gap, c.TemporalSoften(1, 255, 255).Cell(96, 96))
END
echo 'Import("examples/compare.avs")' | picture compare 12 3
echo 'Import("examples/difference.avs")' | picture difference 10 3
echo 'Import("examples/wide.avs")' | picture wide 12 3
echo 'Import("examples/sheet.avs")' | picture sheet 0 3
"$here/diagrams.py" "$into"
cd "$into"
ls -l -- *.png *.svg | awk '{ print $5, $9 }'
