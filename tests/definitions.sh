#!/usr/bin/env bash
# Holds the list of definitions to believe in docs/PROMISES.md against what its last ones name, directly or through others.
# The last line is 'N passed, M failed'.
set -u
cd "$(dirname "$0")/.." || exit 1
source tests/tally.sh

# The files of specs/ that a file of specs/ names.
named_by() {
    sed -nE '/^use Rattle\.std\./d; s/^use Rattle\.([a-z]+)\.specs\.([A-Z][A-Za-z]*).*/crates\/\1\/specs\/\2.antt/p' "$1"
}

reached() {
    local left=("$@") seen=' ' file
    while [ ${#left[@]} -gt 0 ]; do
        file=${left[0]}
        left=("${left[@]:1}")
        case $seen in *" $file "*) continue ;; esac
        seen="$seen$file "
        mapfile -t -O ${#left[@]} left < <(named_by "$file")
    done
    tr ' ' '\n' <<< "$seen" | sed '/^$/d' | sort
}

listed=$(sed -n '/^## The definitions to believe/,/^For the program/s/^| \([a-z]*\/specs\/[A-Za-z]*\.antt\) .*/crates\/\1/p' docs/PROMISES.md | sort)
demands=(crates/geometry/specs/{Converted,Apart}.antt crates/mesh/specs/OneRun.antt crates/math/specs/Nearest.antt
    crates/closed/specs/Closed.antt)
diff <(reached "${demands[@]}") <(printf '%s\n' "$listed")
tally 'the definitions to believe are those that the demands name' $?

tell_tally
