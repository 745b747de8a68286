#!/usr/bin/env bash
# The arguments of the command line, by the rules of docs/manual/command-line.md: what is accepted gives the same stream
# whatever the options, and what is refused gives the usage line, status 1 and no stream.
set -eu
cd "$(dirname "$0")/.."
[ -n "${AVSSERVE:-}" ] || ./build
program=${AVSSERVE:-$PWD/bin/avsserve}
room=$(mktemp -d)
trap 'rm -rf "$room"' EXIT
cp examples/tiny.y4m "$room"
cd "$room"
usage='usage: avsserve render SCRIPT [--cache C] [--threads T] [--report | --journal] [--plain] | info SCRIPT | selftest NUMBER | session SCRIPT LIST [--cache C] | replay SCRIPT JOURNAL [--cache C]'
for script in s.avs -x.avs --plain --report -- render ' s.avs ' $'a\nb.avs' s.avs=8; do
    echo 'Y4MSource("tiny.y4m").Reverse' >"./$script"
done
"$program" render s.avs >wanted.y4m
runs=1

# accepts WORD ..: these words give the stream.
accepts() {
    local status=0
    "$program" "$@" >out.y4m 2>err.txt || status=$?
    if [ "$status" != 0 ] || ! cmp -s out.y4m wanted.y4m; then
        echo "words: $*: status $status, $(cat err.txt); wanted the stream"
        exit 1
    fi
    runs=$((runs + 1))
}

# refuses WORD ..: these words give the usage line.
refuses() {
    local status=0
    "$program" "$@" >out.y4m 2>err.txt || status=$?
    if [ "$status" != 1 ] || [ -s out.y4m ] || [ "$(cat err.txt)" != "$usage" ]; then
        echo "words: $*: status $status, $(cat err.txt); wanted 1, the usage line"
        exit 1
    fi
    runs=$((runs + 1))
}

accepts render --plain s.avs
accepts render s.avs --cache 1
accepts render s.avs --cache=256 --threads=16
accepts render --threads 0000000001 --plain s.avs --cache 008
accepts render s.avs --
accepts render -- -x.avs
accepts render --plain -- --plain
accepts render --plain -- -x.avs
accepts render -- --
accepts render ./-x.avs
accepts render - <s.avs
accepts render render --plain
accepts render s.avs --report
accepts render --report s.avs --plain
accepts render s.avs --journal
accepts render --journal s.avs --plain
accepts render -- --report
accepts render --report -- --report
accepts render ' s.avs '
accepts render $'a\nb.avs' --plain
accepts render s.avs=8 --cache 8

refuses
refuses render
refuses Render s.avs
refuses -- render s.avs
refuses - s.avs
refuses "" s.avs
refuses --help
refuses --version
refuses help
refuses render --help
refuses render s.avs s.avs
refuses render -x.avs
refuses render s.avs -h
refuses render s.avs -- --plain
refuses render -- s.avs s.avs
refuses render --=
refuses render --report
refuses render s.avs --report s.avs
refuses render s.avs -- --report
for option in --cach=8 --Cache=8 -c --cache --cache= --cache=0 --cache=257 --cache=+8 --cache=-8 --cache=00000000008 \
    --threads=0 --threads=17 --threads=two --plain=1 --plain= --report=1 --report= --reports; do
    refuses render s.avs "$option"
    refuses render "$option" s.avs
done
refuses render s.avs --cache -8
refuses render s.avs --cache --plain
refuses render s.avs --cache 8 --cache 8
refuses render s.avs --cache --
refuses render s.avs --threads=1 --threads=1
refuses render s.avs --plain --plain
refuses render s.avs --report --report
refuses render s.avs --journal --journal
refuses render s.avs --report --journal
refuses render --journal s.avs --report
refuses info
refuses info s.avs --plain
refuses info s.avs --cache 8
refuses info s.avs --report
refuses info s.avs --journal
refuses selftest
refuses selftest x
refuses selftest 4294967296
refuses selftest 1 2
refuses selftest 1 --report
# sessions, of a script and a list, with a cache alone
printf 'frame 1\nquit\n' >l.txt
cp l.txt ./-l.txt
cp l.txt ./--cache
"$program" session s.avs l.txt >wanted.y4m
accepts session s.avs l.txt --cache 1
accepts session --cache=256 s.avs l.txt
accepts session s.avs --cache 8 l.txt
accepts session s.avs - <l.txt
accepts session -- s.avs -l.txt
accepts session --cache 8 -- s.avs --cache
refuses session
refuses session s.avs
refuses session s.avs l.txt l.txt
refuses session s.avs -l.txt
refuses session s.avs l.txt --cache 0
refuses session s.avs l.txt --cache 257
refuses session s.avs l.txt --cache 8 --cache 8
for option in --threads=1 --plain --report --journal --cache --cach=8; do
    refuses session s.avs l.txt "$option"
    refuses replay s.avs j.txt "$option"
done
# replays, of a script and a journal, with a cache alone
"$program" render s.avs --journal >out.y4m 2>j.txt
cp j.txt ./-j.txt
"$program" replay s.avs j.txt >wanted.y4m
accepts replay s.avs j.txt --cache 256
accepts replay --cache=64 s.avs j.txt
accepts replay s.avs - <j.txt
accepts replay -- s.avs -j.txt
refuses replay
refuses replay s.avs
refuses replay s.avs j.txt j.txt
refuses replay s.avs -j.txt
refuses replay s.avs j.txt --cache 0
refuses replay s.avs j.txt --cache 257
refuses replay s.avs j.txt --cache 8 --cache 8
# words that are empty, that have blanks around them, that are no text, and too many of them
refuses ""
refuses " render" s.avs
refuses "render " s.avs
refuses "render s.avs"
refuses render s.avs ""
refuses render "" s.avs
refuses render s.avs " --plain"
refuses render s.avs --cache " 8"
refuses render s.avs --cache "8 "
refuses render s.avs "--cache= 8"
refuses selftest " 1"
refuses $'\xff' s.avs
refuses render $'\xff'
refuses render s.avs $'--cache=\xff'
refuses render s.avs --cache 8 $'\xc3'
refuses info s.avs $'\xff'
for count in 3 30 300; do
    mapfile -t words < <(yes s.avs | head -n "$count")
    refuses render "${words[@]}"
    mapfile -t words < <(yes "" | head -n "$count")
    refuses render "${words[@]}"
    mapfile -t words < <(yes -- --plain | head -n "$count")
    refuses render s.avs "${words[@]}"
done
echo "words: $runs runs ended as they should"
