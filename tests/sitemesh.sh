#!/usr/bin/env bash
# What target/bin/sitemesh does with inputs and outputs that fail or are at a limit. The last line is 'N passed, M failed'.
set -u
cd "$(dirname "$0")/.." || exit 1
program=target/bin/sitemesh
scratch=$(mktemp -d)
trap 'rm -rf "$scratch"' EXIT
source tests/tally.sh

# name, expected standard output and expected standard error
look() {
    [ "$(cat "$scratch/out")" = "$2" ] && [ "$(cat "$scratch/err")" = "$3" ]
    tally "$1" $?
}

: | "$program" > "$scratch/out" 2> "$scratch/err"
look 'an empty input' 'no 1' ''
head -c 8192 /dev/zero | "$program" > "$scratch/out" 2> "$scratch/err"
look '8,192 bytes' 'no 2' ''
head -c 8193 /dev/zero | "$program" > "$scratch/out" 2> "$scratch/err"
look '8,193 bytes' 'long' ''
"$program" < "$scratch" > "$scratch/out" 2> "$scratch/err"
look 'a folder as input' '' 'standard input: Is a directory'
"$program" <&- > "$scratch/out" 2> "$scratch/err"
look 'no input' '' 'standard input: Bad file descriptor'
(head -c 40 crates/sitemesh/stdin; sleep 0.2; tail -c +41 crates/sitemesh/stdin) | "$program" > "$scratch/out" 2> "$scratch/err"
look 'an input in two parts' "$(cat crates/sitemesh/stdout)" ''

# Where the output fails there is none to look at: only what standard error says of it.
look_error() { # name and expected standard error
    [ "$(cat "$scratch/err")" = "$2" ]
    tally "$1" $?
}

[ -c /dev/full ] && "$program" < crates/sitemesh/stdin > /dev/full 2> "$scratch/err"
look_error 'a full output' 'standard output: No space left on device'
"$program" < crates/sitemesh/stdin >&- 2> "$scratch/err"
look_error 'no output' 'standard output: Bad file descriptor'

tell_tally
