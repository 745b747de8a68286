#!/usr/bin/env bash
# Renders each script of examples/ with the built program, and looks at the head and the length of its stream; where ffmpeg
# is installed, it must read as many frames. The scripts read examples/clip.y4m, which examples/make_clip.py writes. What
# info says of one of them must be what docs/manual/command-line.md shows.
set -eu
cd "$(dirname "$0")/.."
[ -n "${AVSSERVE:-}" ] || ./build
program=${AVSSERVE:-$PWD/bin/avsserve}
room=$(mktemp -d)
trap 'rm -rf "$room"' EXIT
has_ffmpeg=true
command -v ffmpeg >/dev/null 2>&1 || { has_ffmpeg=false && echo "examples: ffmpeg skipped, not installed"; }
told=" "

fail() {
    echo "examples: $1"
    exit 1
}

# renders SCRIPT WIDTH HEIGHT FRAMES [FORMAT BYTES [RATE FIELDS]]: this script gives so many frames of this size, in 4:2:0 of 8
# bits or in this format of 4:2:0, whose samples have so many bytes each, at 25 frames a second or at this rate and with these fields.
renders() {
    local script=$1 width=$2 height=$3 frames=$4 format=${5:-420jpeg} bytes=${6:-1} rate=${7:-25} fields=${8:-p} status=0
    local samples=$((width * height * 3 / 2 * bytes)) head="YUV4MPEG2 W$width H$height F$rate:1 I$fields A1:1 C$format"
    "$program" render "examples/$script" >"$room/out.y4m" 2>"$room/err.txt" || status=$?
    [ "$status" = 0 ] || fail "$script: status $status, $(cat "$room/err.txt")"
    [ ! -s "$room/err.txt" ] || fail "$script: it said $(cat "$room/err.txt")"
    local found length wanted=$((${#head} + 1 + frames * (6 + samples)))
    found=$(head -n 1 "$room/out.y4m" | tr -d '\0')
    [ "$found" = "$head" ] || fail "$script: the head is $found; wanted $head"
    length=$(wc -c <"$room/out.y4m")
    [ "$length" = "$wanted" ] || fail "$script: $length bytes; wanted $wanted"
    if $has_ffmpeg; then
        ffmpeg -nostdin -hide_banner -loglevel error -y -f yuv4mpegpipe -i "$room/out.y4m" -f rawvideo "$room/out.raw"
        length=$(wc -c <"$room/out.raw")
        [ "$length" = $((frames * samples)) ] || fail "$script: ffmpeg reads $length bytes of samples; wanted $frames frames"
    fi
    told="$told$script "
}

renders copy.avs 32 16 3
renders ten_bits.avs 48 36 24 420p10 2
renders trim_crop.avs 40 32 16
renders wide.avs 56 32 24
renders compare.avs 100 36 24
renders join.avs 48 36 20
renders sheet.avs 144 72 1
renders letterbox.avs 1920 1080 24
renders encodes.avs 48 36 24
renders cut_list.avs 48 36 14
renders tape.avs 48 36 24 420p10 2
renders with_library.avs 40 32 21
renders bob.avs 48 36 48 420jpeg 1 50 t
renders brightness.avs 40 32 24
renders repair.avs 48 36 24
renders slideshow.avs 48 36 23
renders difference.avs 144 36 24
for script in examples/*.avs; do
    case "$told" in
    *" ${script#examples/} "*) ;;
    *) fail "$script has no line in this test" ;;
    esac
done
status=0
found=$("$program" info examples/compare.avs 2>"$room/err.txt") || status=$?
[ "$status" = 0 ] || fail "info examples/compare.avs: status $status, $(cat "$room/err.txt")"
wanted=$(sed -n '/^clip 100x36/,/^prefetch/p' docs/manual/command-line.md)
[ -n "$wanted" ] || fail "docs/manual/command-line.md shows no info of compare.avs"
[ "$found" = "$wanted" ] || fail "info examples/compare.avs says:
$found"

echo "examples: each script gave the stream that it should"
