#!/usr/bin/env bash
# Tries the converter's archive (bash tools/build host) from C, C++ and Rust, on the stored examples, and the lines of README.
# The last line is 'N passed, M failed'.
set -u
cd "$(dirname "$0")/.." || exit 1
archive=target/staticlib/libhost.a
out=target/hosts
source tests/tally.sh

rm -rf "$out" target/example_c target/example_rs
mkdir -p "$out"
# What hosts/sitemesh.h says that a host's C library has to have.
if have 'the names from outside' nm; then
    nm -u "$archive" > "$out/outside" && ! sed -n 's/^ *U //p' "$out/outside" | grep -vE '^(memcpy|memset)$'
    tally 'the archive needs no name from outside but memcpy and memset' $?
fi

callers=()
cc -std=c99 -O2 -Wall -Wextra -Wpedantic -Werror hosts/call.c "$archive" -o "$out/call_c"
tally 'hosts/call.c compiles' $?
if have 'the Rust wrapper' rustc; then
    for edition in 2021 2024; do
        rustc --edition "$edition" -D warnings -O hosts/call.rs -C "link-arg=$archive" -o "$out/call_rs_$edition"
        tally "hosts/call.rs compiles in edition $edition" $?
        callers+=("$out/call_rs_$edition")
    done
fi

# What hosts/call.rs prints of a mesh: its first line, and the colour of each vertex.
told() {
    sed -n -e 1p -e 's/^v .* \(c\( [0-9a-f]\{8\}\)\{4\}\).*/\1/p'
}

for block in examples/*.block tools/cases/*.block; do
    "$out/call_c" "$block" white | cmp - "${block%.block}.mesh"
    tally "$block from C" $?
    for call in "${callers[@]}"; do
        "$call" "$block" white | cmp - <(told < "${block%.block}.mesh")
        tally "$block by $call" $?
    done
done

# The colour of a missing entry is the call's, word by word: grey, and words of which three are NaN. Of the annex no listed
# colour is white, so its mesh is that of sitemesh with another colour for white.
white='3f800000 3f800000 3f800000 3f800000'
for colour in grey 7fa00001,ffc00002,7fffffff,80000001; do
    words=${colour//,/ }
    [ "$colour" = grey ] && words='3f4ccccd 3f4ccccd 3f4ccccd 3f800000'
    sed "s/c $white/c $words/" examples/annex.mesh > "$out/annex.mesh"
    "$out/call_c" examples/annex.block "$colour" | cmp - "$out/annex.mesh" && grep -q "$words" "$out/annex.mesh"
    tally "missing colours are $colour from C" $?
    for call in "${callers[@]}"; do
        "$call" examples/annex.block "$colour" | cmp - <(told < "$out/annex.mesh")
        tally "missing colours are $colour by $call" $?
    done
    # Where no colour is missing, or the block has none, the call's is not seen.
    for block in examples/{ground,hospital,duct,mast,ambulance,paths}.block; do
        "$out/call_c" "$block" "$colour" | cmp - "${block%.block}.mesh"
        tally "$block with $colour" $?
    done
done
"$out/call_c" examples/annex.block grey | cmp - examples/grey/annex.mesh
tally 'examples/grey/annex.mesh from C' $?

# A listed grey and a missing one are one vertex.
for call in "$out/call_c" "${callers[@]}"; do
    [ "$("$call" tools/cases/joined.block grey | sed -n 1p)" = 'mesh 4 6 1 0 1' ] &&
        [ "$("$call" tools/cases/joined.block white | sed -n 1p)" = 'mesh 6 6 1 0 1' ]
    tally "a listed grey beside missing colours by $call" $?
done

# The two colours that have names have the same words in the header, the wrapper, the code and the definition.
named() { # NAME, words
    local header wrapper code definition
    header=$(sed -n "/ SITEMESH_$1 = /p" hosts/sitemesh.h | grep -o '0x[0-9a-f]*')
    wrapper=$(sed -n "/ $1: Colour = /p" hosts/sitemesh.rs | grep -o '0x[0-9a-f_]*' | tr -d _)
    code=$(sed -n "/ $1: Words4 = /,/^}/p" crates/geometry/src/answer.rt | grep -o '0x[0-9a-f_]*' | tr -d _)
    definition=$(sed -n "/^${1,,} = /p" crates/geometry/specs/Answer.antt | grep -o '0x[0-9a-f_]*' | tr -d _)
    [ "$header" = "$(printf '0x%s\n' $2)" ] && [ "$header" = "$wrapper" ] && [ "$header" = "$code" ] &&
        [ "$header" = "$definition" ]
    tally "$1 is the same everywhere" $?
}
named GREY '3f4ccccd 3f4ccccd 3f4ccccd 3f800000'
named WHITE "$white"

# The ground has as many corners as are lent for, so its own slices may not be one short; the working slices have room.
for slice in positions normals colours textures sources; do
    [ "$("$out/call_c" examples/ground.block grey "$slice")" = 'no 8' ]
    tally "$slice one short" $?
done

# Sine and cosine: those of the library are what tools/sine.py works out from the stored table.
if have 'sines and cosines' python3; then
    for ((k = 0; k < 65536; k += 7)); do printf '%04x%04x\n' "$k" $((k * 40503 % 65536)); done > "$out/angles"
    python3 tools/sine.py < "$out/angles" > "$out/sines"
    cc -std=c99 -O2 -Wall -Wextra -Wpedantic -Werror hosts/sine.c "$archive" -o "$out/sine_c" &&
        "$out/sine_c" < "$out/angles" | cmp - "$out/sines"
    tally 'sines and cosines from C' $?
    if have 'sines and cosines from C++' g++; then
        g++ -x c++ -Wall -Wextra -Werror -I hosts hosts/sine.c -x none "$archive" -o "$out/sine_cpp" &&
            "$out/sine_cpp" < "$out/angles" | cmp - "$out/sines"
        tally 'sines and cosines from C++' $?
    fi
    if [ "${#callers[@]}" -ne 0 ]; then
        rustc --edition 2024 -D warnings -O hosts/sine.rs -C "link-arg=$archive" -o "$out/sine_rs" &&
            "$out/sine_rs" < "$out/angles" | cmp - "$out/sines"
        tally 'sines and cosines from Rust' $?
    fi
fi

# Parts: what is made of the stored ones, and what is tried of them from C, C++ and Rust, which print the same.
cc -std=c99 -O2 -Wall -Wextra -Wpedantic -Werror hosts/part.c "$archive" -o "$out/part"
tally 'hosts/part.c compiles' $?
for part in examples/*.part tools/cases/*.part; do
    "$out/part" "$part" | cmp - "${part%.part}.mesh"
    tally "$part from C" $?
done
for text in 'box 1' 'torus 0' '' 'cylinder 3f800000 40000000 1 1 1 3 0 transform 1'; do
    printf '%s\n' "$text" > "$out/wrong.part"
    printed=$("$out/part" "$out/wrong.part" 2> "$out/said")
    [ $? -eq 2 ] && [ -z "$printed" ] && [ "$(wc -l < "$out/said")" -eq 1 ]
    tally "no part: '$text'" $?
done
cc -std=c99 -O2 -Wall -Wextra -Wpedantic -Werror hosts/parts.c "$archive" -o "$out/parts_c" && "$out/parts_c" > "$out/parts"
tally 'parts from C' $?
[ "$(grep -c '^\(box\|sphere\|cylinder\|cone\|transform\|points\) ' "$out/parts")" -eq 151 ]
tally 'parts from C: how many' $?
if have 'parts from C++' g++; then
    g++ -x c++ -Wall -Wextra -Werror -I hosts hosts/parts.c -x none "$archive" -o "$out/parts_cpp" &&
        "$out/parts_cpp" | cmp - "$out/parts" &&
        g++ -x c++ -Wall -Wextra -Werror -I hosts hosts/part.c -x none "$archive" -o "$out/part_cpp" &&
        "$out/part_cpp" examples/drum.part | cmp - examples/drum.mesh
    tally 'parts from C++' $?
fi
if [ "${#callers[@]}" -ne 0 ]; then
    for edition in 2021 2024; do
        rustc --edition "$edition" -D warnings -O hosts/parts.rs -C "link-arg=$archive" -o "$out/parts_rs" &&
            "$out/parts_rs" | cmp - "$out/parts"
        tally "parts from Rust, edition $edition" $?
    done
fi
# The angles that are filled, worked out from the table of docs/FORMAT.md 17.3 for 3 slices and 2 stacks.
if have 'the angles of parts' python3; then
    python3 - > "$out/angles" << 'END'
import math, struct
def f32(x):
    return struct.unpack('>f', struct.pack('>f', x))[0]
def at(p, s):
    return struct.pack('>f', f32(p) * s).hex()
tau, n, k = 2 * math.pi, 3, 2
s = [f32(i / n) for i in range(n + 1)]
turns = [at(tau, x) for x in s]
sphere = [angle for j in range(k + 1) for angle in [at(math.pi, f32(j / k))] + turns]
cone = [at(tau, x) for a, b in zip(s, s[1:]) for x in (a, b, a, b, f32(f32(a + b) / 2))]
for name, angles in ('sphere', sphere), ('cylinder', turns + 2 * turns[:n]), ('cone', cone + turns[:n]):
    print('angles of a', name, *angles)
END
    grep '^angles' "$out/parts" | cmp - "$out/angles"
    tally 'the order in which pairs are filled' $?
fi

# README's lines, as they stand there: each compiles, and the programs say the same of the duct.
duct='100 vertices, 372 indices
first corner at 29.920 12.000 42.620'
line() { # how it begins, and what it has to print
    local line printed
    line=$(sed -n "s|^    \($1 .*\)|\1|p" README.md)
    [ -n "$line" ] && printed=$(eval "$line") && [ "$printed" = "$2" ]
    tally "README: $line" $?
}
line cc ''
line target/example_c "$duct"
examples=(target/example_c)
if [ "${#callers[@]}" -ne 0 ]; then
    line rustc ''
    line target/example_rs "$duct"
    examples+=(target/example_rs)
fi
if have 'the call from C++' g++; then
    g++ -x c++ -Wall -Wextra -Werror -I hosts hosts/example.c -x none "$archive" -o "$out/example_cpp"
    tally 'hosts/example.c compiles as C++' $?
    examples+=("$out/example_cpp")
fi

# Header bytes, then as many zeros.
zeros() { # the header's first bytes, and the zeros
    printf "$1"
    head -c "$2" /dev/zero
}

# The most of everything: one face of 8,192 corners over as many points, all alike.
zeros '\x10\x00\x08\x00\x20' 131135 > "$out/most"
for example in "${examples[@]}"; do
    [ "$("$example" < "$out/most")" = $'1 vertices, 24570 indices\nfirst corner at 0.000 0.000 0.000' ]
    tally "the most corners and points by $example" $?
done
for call in "${callers[@]}"; do
    [ "$("$call" "$out/most" white)" = 'no 8' ]
    tally "the most corners and points by $call" $?
done

# The examples pass grey.
for example in "${examples[@]}"; do
    [ "$("$example" < tools/cases/joined.block | sed -n 1p)" = '4 vertices, 6 indices' ]
    tally "grey by $example" $?
done

# Each refusal but 8, by number from C and by name from Rust; the names are those of docs/FORMAT.md 3.
head -c 19 examples/duct.block > "$out/refused1"
(printf '\x20'; tail -c +2 examples/duct.block) > "$out/refused2"
(head -c 19 examples/duct.block; printf '\x01'; tail -c +21 examples/duct.block) > "$out/refused3"
(printf '\x16\x00\x0f\xff'; tail -c +5 examples/duct.block) > "$out/refused4"
head -c -1 examples/duct.block > "$out/refused5"
zeros '\x14' 67 > "$out/refused6"
zeros '\x14\x00\x00\x10\x00\x40\x00\x01' 16444 > "$out/refused7"
zeros '\x19\x10' 66 > "$out/refused9"
for number in {1..9}; do
    name=$(sed -n "/^## 3 /,/^## 4 /s/^| $number | \([a-z ]*\) |.*/\1/p" docs/FORMAT.md)
    upper=$(printf '%s' "$name" | tr 'a-z ' 'A-Z_')
    camel=$(printf '%s' "$name" | sed 's/\b./\u&/g; s/ //g')
    grep -q "^    SITEMESH_$upper = $number,\?$" hosts/sitemesh.h && grep -q "^    $camel = $number,$" hosts/sitemesh.rs
    tally "refusal $number is named" $?
    [ "$number" -ne 8 ] || continue
    for example in "${examples[@]}"; do
        said=$number
        [ "$example" = target/example_rs ] && said=$camel
        [ "$("$example" < "$out/refused$number")" = "refused: $said" ]
        tally "refusal $number by $example" $?
    done
done

# Refusal 10 is of parts alone.
name=$(sed -n '/^### 17.10 /,/^### 17.11 /s/^| 10 | \([a-z ]*\) |.*/\1/p' docs/FORMAT.md)
grep -q "^    SITEMESH_${name^^} = 10$" hosts/sitemesh.h && grep -q "^    ${name^} = 10,$" hosts/sitemesh.rs
tally 'refusal 10 is named' $?

tell_tally
