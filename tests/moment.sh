#!/usr/bin/env bash
# Runs for a moment each script that the gate doesn't run at length, so that none of them is broken for long: the soak, the
# refused allocations, both measurements, and what shows the times of a check. It also makes the pictures, the diagrams and the
# clip of the examples once more, and compares them with those that are kept. What needs a tool that isn't installed is skipped
# with a line.
set -eu -o pipefail
cd "$(dirname "$0")/.."
[ -n "${AVSSERVE:-}" ] || ./build
AVSSERVE=$(realpath "${AVSSERVE:-bin/avsserve}")
export AVSSERVE
room=$(mktemp -d)
trap 'rm -rf "$room"' EXIT
# The measurements make their files there.
export TMPDIR=$room
have() { command -v "$1" >/dev/null 2>&1; }

fail() {
    echo "moment: $1"
    exit 1
}

# runs COMMAND ..: it ends with status 0; what it says is shown where it doesn't.
runs() {
    "$@" >"$room/said.txt" 2>&1 || { cat "$room/said.txt" && fail "$*: status other than 0"; }
    [ -s "$room/said.txt" ] || fail "$*: it said nothing"
    grep skipped "$room/said.txt" || true
}

runs tests/soak.py --minutes 0.08 --frames 1500 --jobs 2
runs tests/out_of_memory.sh --step 4 --only "info both.avs"
runs bench/measure.py --small --rounds 1
runs bench/workers.py --frames 50 --size 64x272 --rounds 1 --threads 1,2 --only trim,crop,borders,script "$AVSSERVE"
runs bench/session.py --small --rounds 1 "$AVSSERVE"
runs bench/replay.py --quick --rounds 1 "$AVSSERVE"
"$AVSSERVE" info examples/compare.avs >"$room/info.txt"
"$AVSSERVE" render --journal examples/compare.avs >"$room/compare.y4m" 2>"$room/journal.txt"
runs bench/journal_stats.py "$room/journal.txt" --info "$room/info.txt"
runs bench/journal_stats.py "$room/journal.txt" --window 0
runs tests/out_of_memory.sh --step 4 --only "session both.avs -"
runs bench/gate_times.py --most 1 true
if [ -d crates/fv_io/out/incremental ]; then
    runs bench/check_times.py fv_io 3
else
    echo "moment: bench/check_times.py skipped, nothing was checked here"
fi

cp examples/make_clip.py "$room"
python3 "$room/make_clip.py"
cmp "$room/clip.y4m" examples/clip.y4m || fail "examples/make_clip.py makes another clip"
mkdir "$room/pictures"
if have ffmpeg; then
    runs docs/pictures/make.sh "$room/pictures"
else
    echo "moment: docs/pictures/make.sh skipped, ffmpeg is not installed"
    docs/pictures/diagrams.py "$room/pictures"
fi
# The pictures of the page differ with each Chromium, so they aren't compared.
if have ffmpeg && have chromium; then
    runs docs/pictures/page.py "$room"
    runs bench/preview.py --small
else
    echo "moment: docs/pictures/page.py and bench/preview.py skipped, chromium or ffmpeg is not installed"
fi
# Another ffmpeg may compress a picture in another way, so the samples count.
samples() { ffmpeg -nostdin -v error -i "$1" -f rawvideo -pix_fmt rgb24 -; }
for made in "$room"/pictures/*; do
    kept=docs/pictures/$(basename "$made")
    case $kept in
    *.svg) cmp "$made" "$kept" || fail "$kept isn't what docs/pictures/diagrams.py draws" ;;
    *)
        cmp -s "$made" "$kept" || cmp <(samples "$made") <(samples "$kept") ||
            fail "$kept isn't what docs/pictures/make.sh makes"
        ;;
    esac
done
echo "moment: each script ran, and the pictures are those that are kept"
