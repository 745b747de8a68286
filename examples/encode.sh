#!/usr/bin/env bash
# Encodes a video through a script, and puts its sound back.
#
#     examples/encode.sh VIDEO SCRIPT OUT.mkv [SECOND] [OPTION OF x264 ..]
#
# The script reads Y4MSource(file): here `file` is the stream that ffmpeg makes of VIDEO, in 4:2:0, of 10 bits where the video has
# more than 8, else of 8, without the last row or column of an odd size. SECOND is where in VIDEO the clip of the script begins, 0 if it
# isn't given: the sound begins there, and goes on as it is, also where the script leaves frames out in the middle. With
# `Trim(180, 0)` at 25 frames a second it is 7.2. Range, matrix, primaries and transfer are those of VIDEO. Where x264 isn't
# installed, ffmpeg encodes by libx264, with the same options.
#
# Sound is copied as it is, so PCM goes into .mkv or .mov, and not into .mp4. The stream is large, and lies beside OUT.mkv until the
# end. Where anything fails, so does this, and there is no OUT.mkv.
set -eu -o pipefail

fail() {
    echo "encode: $1" >&2
    exit 1
}

[ $# -ge 3 ] || fail "usage: examples/encode.sh VIDEO SCRIPT OUT.mkv [SECOND] [OPTION OF x264 ..]"
video=$1 script=$2 out=$3 second=0
shift 3
if [ $# -gt 0 ] && [[ $1 =~ ^[0-9]+(\.[0-9]+)?$ ]]; then
    second=$1
    shift
fi
[ $# -eq 0 ] || [[ $1 = -* ]] || fail "$1: SECOND is a number such as 7.2, and options follow it"
case ${out##*.} in
mkv | mp4 | mov | m4v) ;;
*) fail "$out: the name has to end in .mkv, .mp4, .mov or .m4v" ;;
esac
[ -f "$video" ] || fail "$video: no such file"
[ -f "$script" ] || fail "$script: no such file"
[ ! -e "$out" ] || fail "$out: it is there already"
avsserve=${AVSSERVE:-$(dirname "$0")/../bin/avsserve}
[ -x "$avsserve" ] || avsserve=avsserve
room=$(mktemp -d "$(dirname "$out")/encode.XXXXXX")
trap 'rm -rf "$room"' EXIT

# What the video is.
asked=$(ffprobe -v error -select_streams v:0 -of default=nw=1 "file:$video" \
    -show_entries stream=width,height,pix_fmt,color_range,color_space,color_transfer,color_primaries)
[ -n "$asked" ] || fail "$video: it has no picture"
sound=$(ffprobe -v error -select_streams a:0 -show_entries stream=codec_name -of csv=p=0 "file:$video")
case $out:$sound in *.mp4:pcm* | *.m4v:pcm*) fail "$out: $sound is no sound for it, .mkv and .mov take it" ;; esac
what() {
    local value
    value=$(sed -n "s/^$1=//p" <<<"$asked")
    case $value in unknown | N/A | reserved | gbr) ;; *) echo "$value" ;; esac
}
pixels=$(what pix_fmt) range=$(what color_range) matrix=$(what color_space)
transfer=$(what color_transfer) primaries=$(what color_primaries)
width=$(what width) height=$(what height)
# Chroma of 4:2:0 has half the columns and rows.
convert='crop=trunc(iw/2)*2:trunc(ih/2)*2'
case $pixels in
*rgb* | *bgr* | gbr*) range=tv matrix=bt709 convert=$convert,scale=out_color_matrix=bt709:out_range=tv ;;
*)
    # Without this ffmpeg may convert full range to limited.
    [ "$range" != pc ] || convert=$convert,scale=in_range=pc:out_range=pc
    ;;
esac
case $pixels in
*p9?? | *p1[0-6]?e | gray9* | gray1[0-6]* | *48?e | *64?e | p01* | x2*) format=yuv420p10le bytes=2 ;;
*) format=yuv420p bytes=1 ;;
esac
[ $((width * height * bytes * 3 / 2)) -le 16777216 ] || fail "$video: a frame of ${width}x$height is too large, scale it down by ffmpeg"

ffmpeg -nostdin -v error -i "file:$video" -map 0:v:0 -vf "$convert" -pix_fmt $format -strict -1 "file:$room/in.y4m"
printf 'file = """%s"""\nImport("""%s""")\n' "$room/in.y4m" "$script" >"$room/s.avs"
"$avsserve" info "$room/s.avs" >"$room/info.txt"
read -r _ _ pixels rate _ frames <"$room/info.txt"
length=$(awk -v "n=$frames" -v "rate=$rate" 'BEGIN { split(rate, r, ":"); printf "%.6f", n * r[2] / r[1] }')
lasts=$(ffprobe -v error -show_entries format=duration -of csv=p=0 "file:$video")
awk -v "from=$second" -v "n=$length" -v "all=$lasts" 'BEGIN { exit !(all + 0 > 0 && from > 0 && from + n > all + 1) }' &&
    echo "encode: from second $second on the clip is longer than $video: is that where it begins?" >&2
depth=8
case $pixels in
*P10 | Y10) depth=10 ;;
*P1? | Y1?) fail "the clip is $pixels: let the script end with ConvertBits(10)" ;;
esac
case $pixels in
Y8 | Y10) space=i400 planes=gray ;;
YV12 | YUV420*) space=i420 planes=yuv420p ;;
YV16 | YUV422*) space=i422 planes=yuv422p ;;
YV24 | YUV444*) space=i444 planes=yuv444p ;;
*) fail "the clip is $pixels, which x264 doesn't encode" ;;
esac
[ $depth = 8 ] || planes=${planes}10le

by_x264() {
    local told=(--input-range "${range:-tv}" --output-csp "$space" --output-depth "$depth")
    [ -z "$range" ] || told+=(--range "$range")
    [ -z "$matrix" ] || told+=(--colormatrix "$matrix")
    [ -z "$primaries" ] || told+=(--colorprim "$primaries")
    # What ffprobe calls otherwise.
    case $transfer in gamma22) transfer=bt470m ;; gamma28) transfer=bt470bg ;; esac
    [ -z "$transfer" ] || told+=(--transfer "$transfer")
    "$avsserve" render "$room/s.avs" |
        x264 --log-level warning --demuxer y4m --frames "$frames" "${told[@]}" "$@" -o "$room/video.mkv" -
}

# The options of x264 as ffmpeg takes them.
by_ffmpeg() {
    local told=() params="" name value head
    while [ $# -gt 0 ]; do
        name=$1 value=1
        shift
        [[ $name = --* ]] || fail "$name: without x264, options are as --crf 20"
        if [[ $name = *=* ]]; then
            value=${name#*=} name=${name%%=*}
        elif [ $# -gt 0 ] && [[ $1 != --* ]]; then
            value=$1
            shift
        fi
        case $name in
        --preset | --tune | --profile) told+=("-${name#--}:v" "$value") ;;
        *) params=$params${params:+:}${name#--}=$value ;;
        esac
    done
    [ -z "$params" ] || told+=(-x264-params "$params")
    # x264 itself takes this from the head.
    IFS= read -r head <"$room/in.y4m"
    case $head in *" It "* | *" Ib "*) told+=(-flags +ilme+ildct) ;; esac
    local marks=""
    [ -z "$range" ] || marks=$marks:range=$range
    [ -z "$matrix" ] || marks=$marks:colorspace=$matrix
    [ -z "$primaries" ] || marks=$marks:color_primaries=$primaries
    [ -z "$transfer" ] || marks=$marks:color_trc=$transfer
    [ -z "$marks" ] || told+=(-vf "setparams=${marks#:}")
    "$avsserve" render "$room/s.avs" |
        ffmpeg -v error -nostats -progress pipe:1 -f yuv4mpegpipe -i - -pix_fmt $planes -c:v libx264 "${told[@]}" \
            "file:$room/video.mkv" |
        while IFS='=' read -r name value; do
            if [ "$name" = frame ] && [ "$value" -gt 0 ]; then
                left=$((SECONDS * (frames - value) / value))
                printf '\r[%d%%] %d/%d frames, %d:%02d left ' $((100 * value / frames)) "$value" "$frames" \
                    $((left / 60)) $((left % 60)) >&2
            fi
        done
    echo >&2
}

SECONDS=0
if command -v x264 >/dev/null 2>&1; then by_x264 "$@"; else by_ffmpeg "$@"; fi
# Sound from that second on, as long as the picture. -copypriorss leaves out what a copy would take from before it.
ffmpeg -nostdin -v error -i "file:$room/video.mkv" -ss "$second" -t "$length" -i "file:$video" -map 0:v -map '1:a?' -map_chapters -1 \
    -c copy -copypriorss:a 0 "file:$room/out.${out##*.}"
found=$(ffprobe -v error -select_streams v:0 -count_packets -show_entries stream=nb_read_packets -of csv=p=0 \
    "file:$room/out.${out##*.}")
[ "${found%%,*}" = "$frames" ] || fail "$found frames of $frames were encoded"
mv "$room/out.${out##*.}" "$out"
