#!/usr/bin/env bash
# Other tools read what avsserve writes, and avsserve reads what ffmpeg writes, in each format; samples agree byte for byte.
# A tool that isn't installed is skipped with a line (Debian: apt-get install ffmpeg x264 mjpegtools).
set -eu
cd "$(dirname "$0")/.."
program=${AVSSERVE:-$PWD/bin/avsserve}
have() { command -v "$1" >/dev/null 2>&1; }
if ! have ffmpeg; then
    echo "peers: skipped, ffmpeg is not installed"
    exit 0
fi
[ -n "${AVSSERVE:-}" ] || ./build
room=$(mktemp -d)
trap 'rm -rf "$room"' EXIT
cd "$room"
quiet=(-nostdin -hide_banner -loglevel error -y)

# The samples of a stream, as ffmpeg reads them.
samples() {
    ffmpeg "${quiet[@]}" -f yuv4mpegpipe -i "$1" -f rawvideo -pix_fmt "$2" "$3"
}

# Whether this x264 can encode 10 bits: some builds have 8 alone.
deep_x264() { have x264 && x264 --help | grep -q 'Output bit depth: .*10'; }

# A clip of this format, written by ffmpeg, rendered by avsserve, and read again by each tool.
exchange() {
    local name=$1 pixels=$2 location=$3 tag=$4 space=$5 depth=${6:-8}
    ffmpeg "${quiet[@]}" -f lavfi -i testsrc2=size=64x48:rate=30000/1001:duration=0.5 -pix_fmt "$pixels" \
        -chroma_sample_location "$location" -strict -1 -f yuv4mpegpipe in.y4m
    head -n 1 in.y4m | tr ' ' '\n' | grep -qx "$tag" || [ "$pixels" != yuv420p ] ||
        { echo "peers: ffmpeg wrote $name under another name: $(head -n 1 in.y4m)"; exit 1; }
    echo 'Y4MSource("in.y4m")' >s.avs
    "$program" render s.avs >out.y4m
    head -n 1 out.y4m | tr ' ' '\n' | grep -qx "$tag" ||
        { echo "peers: $name: unexpected head: $(head -n 1 out.y4m)"; exit 1; }
    samples in.y4m "$pixels" in.raw
    samples out.y4m "$pixels" out.raw
    [ -s in.raw ] && cmp in.raw out.raw
    local read_by="ffmpeg"
    if have x264 && [ "$space" != - ] && { [ "$depth" = 8 ] || deep_x264; }; then
        x264 --quiet --demuxer y4m --output-csp "$space" --output-depth "$depth" -o out.264 out.y4m 2>x264.log ||
            { cat x264.log; exit 1; }
        read_by="$read_by, x264"
    fi
    if have yuvfps && [ "$depth" = 8 ]; then
        # At the clip's own rate yuvfps passes each frame on.
        yuvfps -v 0 -r 30000:1001 <out.y4m >mjpeg.y4m 2>mjpeg.log || { cat mjpeg.log; exit 1; }
        samples mjpeg.y4m "$pixels" mjpeg.raw
        cmp in.raw mjpeg.raw
        read_by="$read_by, mjpegtools"
    fi
    echo "peers: $name: the samples agree; read by $read_by"
}

exchange "4:2:0 jpeg" yuv420p center C420jpeg i420
exchange "4:2:0 mpeg2" yuv420p left C420mpeg2 i420
exchange "4:2:0 paldv" yuv420p topleft C420paldv i420
exchange "4:2:2" yuv422p left C422 i422
exchange "4:4:4" yuv444p center C444 i444
exchange "4:1:1" yuv411p left C411 -
exchange "mono" gray unspecified Cmono i400
exchange "4:2:0 of 10 bits" yuv420p10le left C420p10 i420 10
exchange "4:2:2 of 10 bits" yuv422p10le left C422p10 i422 10
exchange "4:4:4 of 10 bits" yuv444p10le center C444p10 i444 10
exchange "4:2:0 of 12 bits" yuv420p12le left C420p12 - 12
exchange "4:4:4 of 14 bits" yuv444p14le center C444p14 - 14
exchange "4:2:2 of 16 bits" yuv422p16le left C422p16 - 16
exchange "mono of 10 bits" gray10le unspecified Cmono10 - 10
have x264 || echo "peers: x264 skipped, not installed"
have yuvfps || echo "peers: mjpegtools skipped, not installed"
