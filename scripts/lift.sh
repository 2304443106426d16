#!/usr/bin/env bash
# Proves and builds the program, lifts DECK with LIBRARY, and shows the lifted deck, the map of names and the report.
# Usage: scripts/lift.sh DECK LIBRARY
set -eu
[ $# = 2 ] || { echo "usage: scripts/lift.sh DECK LIBRARY" >&2; exit 1; }
top=$(cd "$(dirname "$0")/.." && pwd)
deck=$(realpath "$1")
library=$(realpath "$2")
room=$(mktemp -d)
trap 'rm -rf "$room"' EXIT
cd "$top/crates/gatelift"
status=0
rt run -- lift "$deck" "$library" "$room/lifted" "$room/map" "$room/report" 2>"$room/log" || status=$?
for file in lifted map report; do
    if [ -e "$room/$file" ]; then cat "$room/$file"; fi
done
[ $status = 0 ] || tail -n 3 "$room/log" >&2
exit $status
