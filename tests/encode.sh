#!/usr/bin/env bash
# Encodes by examples/encode.sh videos that ffmpeg makes: of H.264 with one keyframe and sound, of full range, of 10 bits, of
# fields, without sound, and with blanks in their names; by x264 and, where that can't be found, by ffmpeg. It looks at the frames, at when picture
# and sound begin, at the marks of colour, and at the decoded pictures. Where something fails nothing may be left. Without ffmpeg
# nothing is run, and without x264 its half is skipped with a line.
set -eu -o pipefail
cd "$(dirname "$0")/.."
have() { command -v "$1" >/dev/null 2>&1; }
have ffmpeg && have ffprobe || { echo "encode: skipped, ffmpeg is not installed"; exit 0; }
[ -n "${AVSSERVE:-}" ] || ./build
AVSSERVE=$(realpath "${AVSSERVE:-bin/avsserve}")
export AVSSERVE
encode=$PWD/examples/encode.sh
room=$(mktemp -d)
trap 'rm -rf "$room"' EXIT
cd "$room"
quiet=(-nostdin -v error -y)

fail() {
    echo "encode: $1"
    exit 1
}

# is WHAT FOUND WANTED
is() { [ "$2" = "$3" ] || fail "$1: $2; wanted $3"; }
marks() { ffprobe -v error -select_streams v -of default=nk=1:nw=1 -show_entries "stream=$2" "$1" | paste -sd ' '; }
first() { ffprobe -v error -select_streams "$2" -show_entries packet=pts_time -read_intervals %+#1 -of csv=p=0 "$1" | tr -d ,; }
frames() { ffprobe -v error -select_streams v -count_packets -show_entries stream=nb_read_packets -of csv=p=0 "$1" | tr -d ,; }
samples() { ffmpeg "${quiet[@]}" -i "$1" -f rawvideo ${2:+-pix_fmt $2} -; }

# The sound is 880 Hz up to the second 1.2, and then nothing.
ffmpeg "${quiet[@]}" -f lavfi -i testsrc2=s=64x36:r=25:d=3 -f lavfi -i "aevalsrc=sin(5529*t)*lt(t\,1.2):s=48000:d=3" \
    -c:v libx264 -g 250 -c:a flac "a film.mkv"
ffmpeg "${quiet[@]}" -f lavfi -i testsrc2=s=64x36:r=25:d=0.4 -vf scale=out_range=pc:out_color_matrix=bt709 -pix_fmt yuv420p \
    -color_range pc -colorspace bt709 -color_primaries bt709 -color_trc bt709 -c:v libx264 -qp 0 full.mkv
ffmpeg "${quiet[@]}" -f lavfi -i testsrc2=s=64x36:r=25:d=0.4 -pix_fmt yuv420p10le -c:v libx264 -qp 0 ten.mkv
ffmpeg "${quiet[@]}" -f lavfi -i testsrc2=s=64x48:r=50:d=0.4 -vf interlace -c:v libx264 -qp 0 -flags +ilme+ildct fields.mkv
ffmpeg "${quiet[@]}" -f lavfi -i testsrc2=s=63x35:r=25:d=0.4 -pix_fmt yuv444p -c:v ffv1 odd.mkv
mkdir "to here"
echo 'Y4MSource(file).Trim(30, 0)' >"a cut.avs"
echo 'Y4MSource(file)' >copy.avs

cases() {
    "$encode" "a film.mkv" "a cut.avs" "to here/cut $1.mkv" 1.2 --crf 30 2>progress.txt || fail "$1: $(cat progress.txt)"
    grep -q '%\]' progress.txt || fail "$1: it shows no percentage"
    is "$1: frames" "$(frames "to here/cut $1.mkv")" 45
    is "$1: the first frame" "$(first "to here/cut $1.mkv" v)" 0.000000
    # A packet of this sound has 4608 samples.
    begins=$(first "to here/cut $1.mkv" a)
    awk -v "t=$begins" 'BEGIN { exit !(t >= 0 && t < 0.097) }' || fail "$1: the sound begins at $begins"
    samples=$(ffmpeg "${quiet[@]}" -i "to here/cut $1.mkv" -vn -f s16le - | tr -d '\0' | wc -c)
    is "$1: samples of sound from before the cut" "$samples" 0

    "$encode" full.mkv copy.avs "full $1.mkv" --qp 0 2>progress.txt || fail "$1: $(cat progress.txt)"
    is "$1: full range" "$(marks "full $1.mkv" color_range,color_space,color_transfer,color_primaries)" "pc bt709 bt709 bt709"
    cmp <(samples full.mkv rgb24) <(samples "full $1.mkv" rgb24) || fail "$1: other colours"
    is "$1: streams without sound" "$(ffprobe -v error -show_entries stream=codec_type -of csv=p=0 "full $1.mkv" | tr -d ,)" video

    "$encode" ten.mkv copy.avs "ten $1.mkv" 0 --qp 0 --preset fast 2>progress.txt || fail "$1: $(cat progress.txt)"
    is "$1: ten bits" "$(marks "ten $1.mkv" pix_fmt)" yuv420p10le
    cmp <(samples ten.mkv) <(samples "ten $1.mkv") || fail "$1: other samples of ten bits"

    "$encode" fields.mkv copy.avs "fields $1.mkv" 2>progress.txt || fail "$1: $(cat progress.txt)"
    found=$(ffprobe -v error -show_entries frame=interlaced_frame -of default=nk=1:nw=1 "fields $1.mkv" | sort -u)
    is "$1: fields" "$found" 1

    "$encode" odd.mkv copy.avs "odd $1.mkv" --qp 0 2>progress.txt || fail "$1: $(cat progress.txt)"
    is "$1: an odd size" "$(marks "odd $1.mkv" width,height)" "62 34"
}

# ends ARGUMENT ..: encode.sh fails, and leaves nothing.
ends() {
    ls -R >before.txt
    ! "$encode" "$@" 2>/dev/null || fail "$*: status 0"
    ls -R >after.txt
    cmp before.txt after.txt || fail "$*: it left something"
}

if have x264; then
    cases x264
else
    echo "encode: x264 skipped, not installed"
fi
# The same tools without x264.
mkdir bin
for it in bash env ffmpeg ffprobe awk sed mktemp dirname rm mv; do ln -s "$(command -v $it)" bin; done
script=$encode
without() { PATH=$room/bin "$BASH" "$script" "$@"; }
encode=without
cases libx264
encode=$script

"$encode" full.mkv copy.avs late.mkv 5 2>late.txt || fail "a late second: $(cat late.txt)"
grep -q 'is that where it begins?' late.txt || fail "a late second: it says nothing"

touch before.txt after.txt
echo 'Y4MSource(file).Croq(1)' >wrong.avs
ends full.mkv wrong.avs out.mkv
ends none.mkv copy.avs out.mkv
ends copy.avs copy.avs out.mkv
! have x264 || ends full.mkv copy.avs out.mkv --no-such-option
ends full.mkv copy.avs "full libx264.mkv"
ends full.mkv copy.avs out.webm
ffmpeg "${quiet[@]}" -i "a film.mkv" -c:v copy -c:a pcm_s16le pcm.mkv
ends pcm.mkv copy.avs out.mp4
ends full.mkv copy.avs out.mkv 2,52
ends full.mkv copy.avs out.mkv 0:02.5 --crf 20
echo "encode: sound, range, colours, bits and frames are those of the videos, and what fails leaves nothing"
