#!/usr/bin/env bash
# Runs the built program at limits of what `lift` writes: the last size that is written, which `restore` must take back, and
# the next, of which nothing may be opened and the limit must be said. The files are made here, since they are large.
# The last line is 'N passed, M failed'.
set -u
top=$(cd "$(dirname "$0")/.." && pwd)
program=${1:-$top/crates/gatelift/out/gatelift}
[ -x "$program" ] || { echo "no program at $program: run 'rt run' in crates/gatelift first"; echo "0 passed, 1 failed"; exit 1; }
room=$(mktemp -d)
trap 'rm -rf "$room"' EXIT
passed=0
failed=0

# tell LABEL WRONG: one more passed, or what is wrong
tell() {
    if [ -z "$2" ]; then
        passed=$((passed + 1))
        echo "$1: passed"
    else
        failed=$((failed + 1))
        echo "$1:$2"
    fi
}

# lifted: the deck and the library in the room are lifted; the status is told
lifted() {
    rm -f "$room"/lifted.sp "$room"/map.txt "$room"/report.txt
    "$program" lift "$room/deck.sp" "$room/library.sp" "$room/lifted.sp" "$room/map.txt" "$room/report.txt" >"$room/says" 2>&1
}

# written LABEL: the three files are written, and restored they are the flat deck
written() {
    local status wrong=""
    lifted
    status=$?
    [ $status = 0 ] || wrong="$wrong lift ends with $status: $(cat "$room/says");"
    "$program" restore "$room/lifted.sp" "$room/map.txt" "$room/restored.txt" >"$room/says" 2>&1
    status=$?
    [ $status = 0 ] || wrong="$wrong restore ends with $status: $(cat "$room/says");"
    "$program" flat "$room/deck.sp" "$room/flat.txt" >"$room/says" 2>&1
    cmp -s "$room/restored.txt" "$room/flat.txt" || wrong="$wrong restored, it is not the flat deck;"
    tell "$1" "$wrong"
}

# refused LABEL WHICH NUMBER: nothing is opened, and the limit is said
refused() {
    local status wrong="" file
    lifted
    status=$?
    [ $status = 6 ] || wrong="$wrong lift ends with $status;"
    [ "$(cat "$room/says")" = "gatelift: 6 limit: 50 OutLimit which=$2 number=$3" ] || wrong="$wrong it says $(head -c 200 "$room/says");"
    for file in lifted.sp map.txt report.txt; do
        [ ! -e "$room/$file" ] || wrong="$wrong $file was opened;"
    done
    tell "$1" "$wrong"
}

# name LETTER LENGTH: a name of so many bytes
name() {
    printf '%s%0*d' "$1" $(($2 - 1)) 0
}

# resistor CELL: a cell of one resistor, of this name
resistor() {
    printf '.subckt %s p q\nr1 p q\n.ends\n' "$1"
}

# A variant's name has three bytes more than its cell's.
printf 'names\nra a b 1k\n.end\n' >"$room/deck.sp"
resistor "$(name c 1021)" >"$room/library.sp"
written "a variant's name of 1,024 bytes"
resistor "$(name c 1022)" >"$room/library.sp"
refused "a variant's name of 1,025 bytes" Name 1024

# Each resistor is a chosen instance, so there are two cards for each; one of them is on a rail, and is a chosen instance again
# where the library has a cell for that.
awk 'BEGIN {
    print "cards"
    for (i = 1; i < 200000; i++) printf "r%d a%d b%d 1k\n", i, i, i
    print "rlast 0 blast 1k"
    print ".end"
}' >"$room/deck.sp"
resistor one >"$room/library.sp"
written "400,000 cards"
{
    resistor one
    printf '.subckt tied p\nx1 0 p one\n.ends\n'
} >"$room/library.sp"
refused "400,001 cards" Cards 400000

# The map has two names and nine bytes more for each device, and 35 bytes more.
# longest EXTRA: resistors whose map has so many bytes more than a file may have
longest() {
    awk -v extra="$1" 'BEGIN {
        print "names"
        for (i = 1; i < 33405; i++) printf "r%0999d a b 1k\n", i
        printf "r%0*d a b 1k\n", 91 + extra / 2, 0
        print ".end"
    }' >"$room/deck.sp"
}
printf '.subckt none p q\nc1 p q\n.ends\n' >"$room/library.sp"
longest 0
written "a map of 67,108,864 bytes"
[ "$(wc -c <"$room/map.txt")" = 67108864 ] || { failed=$((failed + 1)); echo "the map has $(wc -c <"$room/map.txt") bytes, not 67,108,864"; }
longest 2
refused "a map of 67,108,866 bytes" MapText 67108864

echo "$passed passed, $failed failed"
[ "$failed" = 0 ]
