#!/usr/bin/env bash
# Checks that jobs, words and options are the same in the commands (crates/gl_words/src/commands.rt), the help of the built
# program, the man page and README, and that help and version end with 0 and words that name no job with 1.
# The last line is 'N passed, M failed'.
set -u
top=$(cd "$(dirname "$0")/.." && pwd)
program=${1:-$top/crates/gatelift/out/gatelift}
commands=$top/crates/gl_words/src/commands.rt
[ -x "$program" ] || { echo "no program at $program: run 'rt run' in crates/gatelift first"; echo "0 passed, 1 failed"; exit 1; }
passed=0
failed=0

# check LABEL COMMAND..: the command ends with 0
check() {
    local label=$1
    shift
    if "$@" >/dev/null 2>&1; then passed=$((passed + 1)); else failed=$((failed + 1)); echo "$label: failed"; fi
}

# words JOB, options JOB: what the command of a job has, in order
words() { command_of "$1" | sed -n 's/.*add_word(.*"\([a-z]*\)").*/\1/p'; }
options() { command_of "$1" | sed -n 's/.*add_option(.*"\([a-z]*\)").*/\1/p'; }
command_of() { sed -n "/^pub fn $1_command/,/^}/p" "$commands"; }
jobs=$(sed -n 's/^pub fn \([a-z]*\)_command.*/\1/p' "$commands")

# usage JOB: the job and its words as they are shown
usage() { echo "$1 $(words "$1" | tr 'a-z\n' 'A-Z ' | sed 's/ *$//')"; }

# has TEXT PART: the part stands in the text
has() { grep -qF -- "$2" <<<"$1"; }

# ends STATUS WORD..: the program ends so on these words, and writes no file
ends() {
    local status=$1
    shift
    "$program" "$@" >/dev/null 2>&1
    [ $? = "$status" ]
}

# options_in TEXT: the options that a text names, but for those that ask for a text
options_in() { grep -oE -- '--[a-z]+' <<<"$1" | sort -u | grep -vE -- '--(help|version)$'; }

all=$("$program" --help)
man=$(sed 's/\\-/-/g; s/\\fB//g; s/\\fI//g; s/\\fR//g; s/^\.B //; s/^\.BR //' "$top/docs/gatelift.1")
readme=$(cat "$top/README.md")
wanted=$(for job in $jobs; do options "$job"; done | sort -u | sed 's/^/--/')

check "there are jobs" test -n "$jobs"
for job in $jobs; do
    text=$("$program" help "$job")
    line=$(usage "$job")
    check "$job: help of all jobs" has "$all" "$line"
    check "$job: help of the job" has "$text" "usage: gatelift $line"
    check "$job: man page" has "$man" "gatelift $line"
    check "$job: README" has "$readme" "| \`$job\` | ${line#* } |"
    check "$job: --help after the job" test "$("$program" "$job" --help)" = "$text"
    check "$job: its options" test "$(options_in "$text")" = "$(options "$job" | sort | sed 's/^/--/')"
    check "$job: help ends with 0" ends 0 help "$job"
    check "$job: no words" ends 1 "$job"
done
check "options: help of all jobs" test "$(options_in "$all")" = "$wanted"
check "options: man page" test "$(options_in "$man")" = "$wanted"
check "options: README" test "$(sed -n '/^| job | words/,/^$/p' <<<"$readme" | grep -oE -- '--[a-z]+' | sort -u)" = "$wanted"
check "help" test "$("$program" help)" = "$all"
check "help ends with 0" ends 0 --help
check "version ends with 0" ends 0 --version
check "version" has "$("$program" --version)" "gatelift "
check "help of no job" ends 1 help nothing
check "no words" ends 1
check "a word that is not UTF-8" ends 1 flat $'\xff' out.sp
check "usage on standard error" has "$("$program" lift 2>&1 >/dev/null)" "usage: gatelift lift"
check "the line on standard output" test "$("$program" lift 2>/dev/null)" = "gatelift: 1 words"
echo "$passed passed, $failed failed"
[ "$failed" = 0 ]
