#!/usr/bin/env bash
# Runs the built program on each folder of examples/ and compares what it writes, says and ends with, byte for byte.
# A folder has about.txt, a line on what it shows, and deck.sp, or lifted.sp and map.txt, or all three. The words in options, if
# there is such a file, are given to each job besides.
#   library.sp is there: `lift` is run on deck.sp. lifted.sp, map.txt and report.txt are what must be written (no report.txt: nothing may be).
#   deck.sp, and flat.txt or no library.sp: `flat` is run. flat.txt is the flat deck that must be written (none: none may be).
#   lifted.sp and map.txt are there: `restore` is run. It too must write flat.txt (none: none may be).
# says.txt is what must be said (none: nothing), and status the status (none: 0), of each job whose output is not there.
# The last line is 'N passed, M failed'.
set -u
top=$(cd "$(dirname "$0")/.." && pwd)
program=${1:-$top/crates/gatelift/out/gatelift}
[ -x "$program" ] || { echo "no program at $program: run 'rt run' in crates/gatelift first"; echo "0 passed, 1 failed"; exit 1; }
room=$(mktemp -d)
trap 'rm -rf "$room"' EXIT
passed=0
failed=0

# same FILE WANTED: the file has the wanted file's bytes, and neither is there without the other
same() {
    if [ -e "$2" ]; then cmp -s "$1" "$2"; else [ ! -s "$1" ]; fi
}

# try LABEL FOLDER WANTED.. -- WORD..: the words' job must write $room/FILE for each wanted FILE of the folder, with its bytes; or, where the
# last of them is not there, open none of these, say and end as the folder has it
try() {
    local label=$1 folder=$2 wanted=() file is_written=yes says wanted_status=0 status wrong=""
    shift 2
    while [ "$1" != -- ]; do wanted+=("$1"); shift; done
    shift
    says=$room/nothing
    if [ ! -e "$folder/${wanted[-1]}" ]; then
        is_written=no
        says=$folder/says.txt
        wanted_status=$(cat "$folder/status" 2>/dev/null || echo 0)
    fi
    rm -rf "${room:?}"/*
    # shellcheck disable=SC2046
    "$program" "$@" $(cat "$folder/options" 2>/dev/null) >"$room/says" 2>"$room/errors"
    status=$?
    [ "$status" = "$wanted_status" ] || wrong="$wrong status $status, not $wanted_status;"
    for file in "${wanted[@]}"; do
        if [ "$is_written" = yes ]; then
            cmp -s "$room/$file" "$folder/$file" || wrong="$wrong $file is otherwise;"
        else
            [ ! -e "$room/$file" ] || wrong="$wrong $file was opened;"
        fi
    done
    same "$room/says" "$says" || wrong="$wrong says otherwise;"
    [ ! -s "$room/errors" ] || wrong="$wrong wrote to standard error;"
    if [ -z "$wrong" ]; then
        passed=$((passed + 1))
        echo "$label: passed"
    else
        failed=$((failed + 1))
        echo "$label:$wrong"
    fi
}

for folder in "$top"/examples/*/; do
    folder=${folder%/}
    name=$(basename "$folder")
    if [ -e "$folder/library.sp" ]; then
        try "$name, lift" "$folder" lifted.sp map.txt report.txt -- lift "$folder/deck.sp" "$folder/library.sp" "$room/lifted.sp" "$room/map.txt" "$room/report.txt"
    fi
    if [ -e "$folder/deck.sp" ] && { [ -e "$folder/flat.txt" ] || [ ! -e "$folder/library.sp" ]; }; then
        try "$name, flat" "$folder" flat.txt -- flat "$folder/deck.sp" "$room/flat.txt"
    fi
    if [ -e "$folder/lifted.sp" ]; then
        try "$name, restore" "$folder" flat.txt -- restore "$folder/lifted.sp" "$folder/map.txt" "$room/flat.txt"
    fi
done
echo "$passed passed, $failed failed"
[ "$failed" = 0 ]
