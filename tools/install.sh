#!/usr/bin/env bash
# Copies the program that was built, its page for man, the completion for bash, the syntax for Vim, the client and the preview,
# what shows a journal, and the examples.
#
#     tools/install.sh PREFIX
#
# PREFIX is /usr/local, say, or ~/.local; PREFIX/bin should be in PATH. The program is bin/avsserve, or the one that the
# environment names as AVSSERVE. It needs the C library, and no other file: it can also be copied by hand.
set -eu
[ $# = 1 ] && [ -n "$1" ] || { echo "usage: tools/install.sh PREFIX" >&2; exit 1; }
prefix=$1
top=$(dirname "$0")/..
program=${AVSSERVE:-$top/bin/avsserve}
[ -x "$program" ] || { echo "install: $program: build it first, by ./build" >&2; exit 1; }

# copies MODE FILE NAME: a file, as NAME below PREFIX.
copies() {
    install -D -m "$1" -- "$2" "$prefix/$3"
    echo "$prefix/$3"
}

copies 755 "$program" bin/avsserve
copies 644 "$top/docs/avsserve.1" share/man/man1/avsserve.1
copies 644 "$top/tools/completion.bash" share/bash-completion/completions/avsserve
copies 644 "$top/tools/avs.vim" share/avsserve/avs.vim
# The client finds the program in PATH, and the preview its page beside itself.
for it in avsserve.py preview.html preview.js preview_paint.js; do
    copies 644 "$top/tools/$it" "share/avsserve/tools/$it"
done
copies 755 "$top/tools/preview.py" share/avsserve/tools/preview.py
copies 755 "$top/bench/journal_stats.py" share/avsserve/tools/journal_stats.py
for it in "$top"/examples/*; do
    mode=644
    [ ! -x "$it" ] || mode=755
    copies $mode "$it" "share/avsserve/examples/${it##*/}"
done
