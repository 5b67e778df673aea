#!/usr/bin/env bash
# Looks that the square root and every function that it calls have no value wider than 32 bits: a width is no fact that a proof can fail.
# It looks at the words of the file and, for what no word says, as the type of a counter that is left to be found, at the types of the code
# that is proved and compiled (tests/code.py). It builds the crates, but for --left, which takes what `rt ci` has just left of them. The last
# line is 'N passed, M failed'.
set -u
cd "$(dirname "$0")/.." || exit 1
source tests/tally.sh

bash tools/build "$@" math lists || tally 'math and lists are proved' 1

# The code of a function and of all that it calls, a function to a line.
code_under() { # crate, function
    python3 tests/code.py "$@"
}

# The types of locals, fields and constants in such lines, but for those that fit in 32 bits.
wider() {
    cut -f2- | tr '\t' '\n' | sort -u | grep -vxE 'Int (8|16|32)|(Float|FloatFromBits) 32|Bool|Unit|Named'
}

file=crates/math/src/square_root.rt
! grep -nwE '[ui](64|128|size)|f64' "$file"
tally "no wider type is named in $file" $?

for name in root roots; do
    code=$(code_under math "math::square_root::$name")
    tally "the code of $name" $?
    ! wider <<< "$code"
    tally "no value of $name is wider than 32 bits" $?
    ! cut -f1 <<< "$code" | grep -v '^math::square_root::'
    tally "$name calls nothing outside of $file" $?
done

# A function with an index of 64 bits, so that the look is seen to see one.
[ -n "$(code_under lists lists::put | wider)" ]
tally 'a wider value is seen where there is one' $?

tell_tally
