#!/usr/bin/env bash
# Tests of proofs.py, on a made-up file and on copies of the crates math and bits, in which the proofs of tools/cases/math and of
# tools/cases/bits, by hand, are those of their functions. The last line is the tally, 'N passed, M failed'; the exit status is 0 only
# where nothing failed.
set -u
cd "$(dirname "$0")/.." || exit 1
tool=$PWD/tools/proofs.py
tried=(math bits)
work=$(mktemp -d)
trap 'rm -rf "$work"' EXIT
export PYTHONDONTWRITEBYTECODE=1
source tests/tally.sh

# The copy, with what the crates stand on, and a repository of one made-up file, which the copy has too.
mkdir -p "$work/copy/crates" "$work/made/crates/made/"{src,proofs/paths}
for crate in lists "${tried[@]}"; do
    mkdir "$work/copy/crates/$crate"
    cp -r crates/$crate/{src,specs,proofs} "$work/copy/crates/$crate"
done
# The code that those proofs are of, and the laws that they cite, as they were when the proofs were written.
cp tools/cases/lists/Cuts.laws "$work/copy/crates/lists/proofs/Cuts.antt"
for part in order quaternion; do
    cp tools/cases/math/$part.code "$work/copy/crates/math/src/$part.rt"
done
cp tools/cases/math/Compare.laws "$work/copy/crates/math/proofs/Compare.antt"
cp tools/cases/bits/lib.code "$work/copy/crates/bits/src/lib.rt"
for crate in "${tried[@]}"; do
    for proof in tools/cases/"$crate"/*.proof; do
        at=$work/copy/crates/$crate/proofs/$(sed -nE 's/^use Rattle\.[a-z]+\.proofs\.(.*)\.Tie as tie$/\1/p' "$proof" | tr . /)
        rm -rf "$at"
        mkdir -p "$at"
        cp "$proof" "$at/Proof.antt"
    done
done
printf 'made:\n' > "$work/made/crates.txt"
printf '#![tactic(auto)]\n' > "$work/made/crates/made/src/lib.rt"
made=$work/made/crates/made/proofs/paths/Proof.antt
cp tools/cases/paths.proof "$made"
cp -r "$work/made/crates/made" "$work/copy/crates"
printf 'lists:\nmath: lists\nbits: lists\nmade:\n' > "$work/copy/crates.txt"

proofs() { # repository, then the words
    (cd "$work/$1" && shift && python3 "$tool" "$@" > "$work/said" 2>&1)
}

# All files of a repository's crates but what rt made.
hold() { # repository, where to
    mkdir "$2"
    tar -C "$work/$1/crates" -c --exclude=out . | tar -C "$2" -x
}

# The words are refused by one line that has this text, and no file is changed.
refused() { # repository, text, then the words
    local at=$1 text=$2
    shift 2
    hold "$at" "$work/held"
    proofs "$at" "$@"
    [ $? -eq 1 ] && [ "$(wc -l < "$work/said")" -eq 1 ] && grep -q "^proofs.py: .*$text" "$work/said" &&
        diff -r --exclude=out "$work/held" "$work/$at/crates"
    tally "refused: $text" $?
    rm -r "$work/held"
}

# A crate folded has marks and no path; expanded it is what it was, and folded again what it was folded.
round() { # crate, and more words for the first expansion
    proofs copy expand "$@" "${goals[@]}"
    hold copy "$work/expanded"
    proofs copy fold "$1" "${goals[@]}"
    find "$work/copy/crates/$1/proofs" -name Proof.antt -exec cat {} + > "$work/text"
    [ "$(grep -c '@' "$work/text")" -gt 5 ] && ! grep -E '\.before|let c[0-9]' "$work/text"
    tally "$* folded" $?
    hold copy "$work/folded"
    proofs copy expand "$1" "${goals[@]}" && diff -r --exclude=out "$work/expanded" "$work/copy/crates"
    tally "$* expanded is what it was" $?
    proofs copy fold "$1" "${goals[@]}" && diff -r --exclude=out "$work/folded" "$work/copy/crates"
    tally "$* folded again" $?
    rm -r "$work/expanded" "$work/folded"
}

proofs made expand made && cmp "$made" tools/cases/paths.named.proof
tally 'far places are named once, and what cannot be read is left alone' $?
proofs made expand --all && [ ! -s "$work/said" ] && cmp "$made" tools/cases/paths.named.proof
tally 'a second time changes nothing' $?
proofs made expand made --bold
diff tools/cases/paths.named.proof "$made" > "$work/bolder"
[ "$(grep -c '^> ' "$work/bolder")" -eq 3 ] && grep -q '^> scope c =$' "$work/bolder"
tally 'where omega reads the names, if it is asked for' $?

proofs copy expand math && [ ! -s "$work/said" ] && proofs copy expand bits && [ ! -s "$work/said" ]
tally 'the proofs of math and bits are expanded' $?
for crate in "${tried[@]}"; do
    goals=(--generated "$work/goals-$crate")
    (cd "$work/copy/crates/$crate" && rt check "${goals[@]}" > "$work/said" 2>&1)
    round "$crate"
    round "$crate" --bold
    proofs copy expand "$crate" "${goals[@]}"
done

part=$work/copy/crates/bits/proofs/part/Proof.antt
proofs copy settle bits && grep -q '^    (λ overflow_sub-size\. search rules)$' "$part" && ! grep -q '^overflow_sub-size c' "$part" && grep -q '^returns c' "$part"
tally 'an answer that is found by itself goes into the list' $?
(cd "$work/copy/crates/bits" && rt check > "$work/said" 2>&1)
tally 'and is found there' $?
proofs copy settle bits && [ ! -s "$work/said" ]
tally 'settled again changes nothing' $?

word=$work/copy/crates/bits/proofs/word/Proof.antt
cp "$word" "$work/word"
proofs copy fold bits word && grep -q '@wide-d\.' "$word" && proofs copy expand bits word "${goals[@]}" && cmp "$word" "$work/word"
tally 'one function, with the places generated anew' $?
proofs copy places bits field_at returns "${goals[@]}" && grep -q '^ *1 At-loop-k: loop-k (v k invariant)$' "$work/said"
tally 'places of a need' $?
sed -i 's/c2\.before\.before\.wide-b\.ensures\.0/c.wide-b.ensures.0/; s/c4\.wide-b\.ensures\.0/c.wide-b.ensures.0/' "$word"
proofs copy fold bits word "${goals[@]}" && grep -q '@wide-b\.ensures\.0' "$word" && proofs copy expand bits word "${goals[@]}" && cmp "$word" "$work/word"
tally 'a thing that is named without the steps to it' $?

sed -i 's/c\.wide-d\./c.wide-e./' "$word"
refused copy 'word/Proof.antt: returns: no such path: c\.wide-e' fold bits "${goals[@]}"
sed -i 's/c\.wide-e\./@wide-e./' "$word"
refused copy 'word/Proof.antt: returns: no place before has @wide-e' expand bits "${goals[@]}"
sed -i 's/@wide-e\./@wide-d:2./' "$word"
refused copy 'no place before has @wide-d:2' expand bits "${goals[@]}"
sed -i 's/@wide-d:2\./((/' "$word"
refused copy 'rt fmt: crates/bits/proofs/word/Proof.antt: ' expand bits "${goals[@]}"
refused copy 'nothing of made' fold made "${goals[@]}"
refused copy 'no crate bit$' fold bit
refused copy 'no proof file for words' expand bits words
refused made 'name a crate' fold

tell_tally
