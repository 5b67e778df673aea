#!/usr/bin/env bash
# Tests of block.py and mesh.py on the examples, on tools/cases and on texts written here. The last line is the tally,
# 'N passed, M failed'; the exit status is 0 only where nothing failed.
set -u
cd "$(dirname "$0")/.." || exit 1
program=${SITEMESH:-target/bin/sitemesh}
site=(ground hospital duct mast ambulance paths)
parts=(drum cabinet beacon dome marks)
meshes=("${site[@]/#/examples/}")
meshes=("${meshes[@]/%/.mesh}")
work=$(mktemp -d)
trap 'rm -rf "$work"' EXIT
export PYTHONDONTWRITEBYTECODE=1
source tests/tally.sh

# The block or the part of a text is the stored one.
stored_block() {
    local stored=$1.block
    [ -e "$1.part" ] && stored=$1.part
    python3 tools/block.py "$1.txt" "$work/made.block" 2> "$work/said" && cmp "$work/made.block" "$stored"
}

# The text is refused, the message has the line and the words, and nothing is written.
faulty() { # text, line, words
    printf "$1" > "$work/faulty.txt"
    rm -f "$work/faulty.block"
    python3 tools/block.py "$work/faulty.txt" "$work/faulty.block" 2> "$work/said"
    [ $? -eq 1 ] && grep -q "faulty.txt: line $2: .*$3" "$work/said" && [ ! -e "$work/faulty.block" ]
    tally "refused text, line $2: $3" $?
}

# The text gives a block and one warning, with the line and the words; with --strict it gives an error and no block.
warned() { # text, line, words
    printf "$1" > "$work/faulty.txt"
    rm -f "$work/strict.block"
    python3 tools/block.py "$work/faulty.txt" "$work/faulty.block" 2> "$work/said" &&
        [ "$(wc -l < "$work/said")" -eq 1 ] && grep -q "faulty.txt: line $2: warning: .*$3" "$work/said" &&
        [ -s "$work/faulty.block" ]
    tally "warning, line $2: $3" $?
    python3 tools/block.py --strict "$work/faulty.txt" "$work/strict.block" 2> "$work/said"
    [ $? -eq 1 ] && grep -q "faulty.txt: line $2: .*$3" "$work/said" && [ ! -e "$work/strict.block" ] &&
        ! grep -q 'warning: ' "$work/said"
    tally "--strict, line $2: $3" $?
}

# The text gives a block, here of so many bytes, and no warning.
silent() { # name, text, bytes
    printf "$2" > "$work/silent.txt"
    python3 tools/block.py --strict "$work/silent.txt" "$work/silent.block" 2> "$work/said" &&
        [ ! -s "$work/said" ] && [ "$(wc -c < "$work/silent.block")" -eq "$3" ]
    tally "no warning: $1" $?
}

# The command has status 1, writes nothing to standard output and one line, with the words, to standard error.
fails() { # name, words, then the command
    local name=$1 words=$2
    shift 2
    "$@" > "$work/out" 2> "$work/said"
    [ $? -eq 1 ] && [ "$(wc -l < "$work/said")" -eq 1 ] && grep -q "$words" "$work/said" && [ ! -s "$work/out" ]
    tally "one line: $name" $?
}

# The same of a command whose output nobody reads.
fails_unread() { # name, then the command
    local name=$1
    shift
    (sleep 0.2; "$@" 2> "$work/said"; printf '%s' $? > "$work/status") | true
    [ "$(cat "$work/status")" -eq 1 ] && [ "$(wc -l < "$work/said")" -eq 1 ] && grep -q 'Broken pipe' "$work/said"
    tally "one line: $name" $?
}

# The help has each of the words.
helps() { # tool, words
    local tool=$1 word
    shift
    python3 "tools/$tool" --help > "$work/help"
    for word in "$@"; do
        grep -q -e "$word" "$work/help"
        tally "$tool --help has $word" $?
    done
}

# Something that is no mesh gives the words on standard error, status 1 and nothing else.
no_mesh() { # text, words, and the forms where not all
    for form in ${3:-obj svg closed}; do
        printf "$1" | python3 tools/mesh.py "$form" > "$work/out" 2> "$work/said"
        [ $? -eq 1 ] && grep -q "^mesh.py: standard input: .*$2" "$work/said" && [ ! -s "$work/out" ]
        tally "$form: $2" $?
    done
}

# Counts of an OBJ file: what its lines begin with, against the meshes' own lines.
same_counts() { # letter of the mesh, mark of the OBJ file
    [ "$(cat "${meshes[@]}" | grep -c "^$1 ")" -eq "$(grep -c "^$2 " "$work/site.obj")" ]
}

for text in examples/*.txt tools/cases/*.txt; do
    stored_block "${text%.txt}"
    tally "block of $text" $?
done

bay=(hall gables roof)
for name in "${site[@]}" "${bay[@]}" pole "${parts[@]}" wing; do
    python3 tools/block.py --strict "examples/$name.txt" "$work/made.block"
    tally "no warning: examples/$name.txt" $?
done
python3 tools/block.py examples/annex.txt "$work/made.block" 2> "$work/said" &&
    [ "$(grep -c 'warning: run [0-3] has no color of its own: colorIndex has -1 there$' "$work/said")" -eq 4 ] &&
    [ "$(wc -l < "$work/said")" -eq 4 ]
tally 'a warning for each wall of examples/annex.txt, and no other' $?

python3 tools/block.py examples/gap.txt "$work/made.block" 2> "$work/said" &&
    [ "$(cat "$work/said")" = \
        'block.py: examples/gap.txt: line 22: warning: run 3 is not drawn: 100 names no point (there are 20, numbered from 0)' ]
tally 'a warning for the dropped wall of examples/gap.txt, and no other' $?
# A ring that was computed ends beside its first point.
printf '%s\n' 'shape Extrusion' 'spine 0 0 0, 0 1 0' 'crossSection 1 0, 0 -1, -1 0, 0 1, 1 2.4e-16' > "$work/ring.txt"
python3 tools/block.py "$work/ring.txt" "$work/made.block" 2> "$work/said" &&
    grep -q 'line 3: warning: crossSection ends beside its first point and does not close' "$work/said"
tally 'a warning for a cross-section that nearly closes' $?

for name in "${site[@]}" annex "${bay[@]}" wing gap pole; do
    [ "$(wc -c < "examples/$name.block")" -le 8192 ] && grep -q '^mesh ' "examples/$name.mesh"
    tally "examples/$name fits what sitemesh lends" $?
done

if have 'meshes made again' "$program"; then
    for block in examples/*.block tools/cases/*.block; do
        "$program" < "$block" | cmp - "${block%.block}.mesh"
        tally "sitemesh prints ${block%.block}.mesh" $?
    done
    python3 tools/drawn.py "$program"
    tally 'sitemesh draws what block.py does not warn of' $?
fi

python3 tools/mesh.py obj tools/cases/{full,lines,grid}.mesh | cmp - tools/cases/three.obj
tally 'OBJ of three meshes' $?
python3 tools/mesh.py obj "${meshes[@]}" > "$work/site.obj"
same_counts v v && same_counts t f && same_counts l l && [ "$(grep -c '^o ' "$work/site.obj")" -eq 6 ]
tally 'OBJ of the site: counts' $?

python3 tools/mesh.py svg examples/site.scene > "$work/site.svg"
cmp "$work/site.svg" examples/site.svg
tally 'picture of the site' $?
python3 tools/mesh.py svg examples/grey/annex.mesh | cmp - examples/annex.svg
tally 'picture of the annex' $?
python3 tools/mesh.py svg examples/{hall,gables,roof}.mesh | cmp - examples/bay.svg
tally 'picture of the loading bay' $?
python3 tools/mesh.py svg examples/pole.mesh > "$work/plain.svg"
python3 tools/mesh.py svg --smooth examples/pole.mesh > "$work/smooth.svg"
plain=$(grep -c '^<path color' "$work/plain.svg") smooth=$(grep -c '^<path color' "$work/smooth.svg")
[ "$plain" -gt 0 ] && [ "$smooth" -eq $((36 * plain)) ] && ! grep -q 'class="e"' "$work/smooth.svg"
tally 'a smooth picture: 36 facets for a triangle, and no edges' $?
python3 tools/mesh.py svg --smooth --turn 105 --tilt 20 examples/pole.mesh | cmp - docs/mast-after.svg &&
    ! cmp -s docs/mast-before.svg docs/mast-after.svg
tally 'picture of the round mast, another than the one with the line' $?
white='c 3f800000 3f800000 3f800000 3f800000' grey='c 3f4ccccd 3f4ccccd 3f4ccccd 3f800000'
sed "s/$white/$grey/" examples/annex.mesh | cmp - examples/grey/annex.mesh && grep -q "$grey" examples/grey/annex.mesh
tally 'the annex has grey where sitemesh put white' $?
well_formed='import sys, xml.etree.ElementTree as tree; tree.parse(sys.argv[1])'
[ "$(wc -c < examples/site.svg)" -lt 100000 ] && python3 -c "$well_formed" examples/site.svg
tally 'the picture is well formed and small' $?
python3 tools/painter.py examples/site.scene && python3 tools/painter.py examples/grey/annex.mesh
tally "painter's order: what is painted last over a point is the nearest there" $?

faulty 'shape IndexedFaceSet\npoint 0 0 0\n  1 0\n' 3 'has 3 numbers'
faulty 'shape IndexedFaceSet\nconvex no\n' 2 'TRUE or FALSE'
faulty '# first\nccw TRUE\n' 2 "the first field is 'shape'"
faulty 'shape Torus\n' 1 'shape is one of .*, Cone'
faulty '\n# nothing\n' 2 'no shape is named'
faulty 'shape Extrusion\ncolor 1 0 0\n' 2 'Extrusion has no field color'
faulty 'shape IndexedLineSet\ncoordIndex 0 1.5\n' 2 'not a whole number'
faulty 'shape IndexedLineSet\ncoordIndex 0\n 2147483648\n' 3 'not between'
faulty 'shape IndexedLineSet\ncolorPerVertex TRUE\n0 1\n' 3 'belongs to no list'
faulty 'shape ElevationGrid\nxDimension 8193\n' 2 'not between'
faulty 'shape ElevationGrid\nheight 0 nan\n' 2 'not a number'
faulty 'shape ElevationGrid\nheight 0 1e39\n' 2 'too large'
faulty 'shape ElevationGrid\ncreaseAngle 1\ncreaseAngle 2\n' 3 'given twice'
faulty 'shape ElevationGrid\ncolor 1 1 1\ncolorRGBA 1 1 1 1\n' 3 'one of the two'
faulty "shape ElevationGrid\nheight\n$(yes 0 | head -n 8192 | tr '\n' ' ')\n 0\n" 4 'more than 8192'

# Commas: between numbers they are spaces, in a number they are an error.
faulty 'shape IndexedFaceSet\npoint 0,5 1,5\n' 2 'decimal comma: write a point'
faulty 'shape IndexedFaceSet\npoint 0 0 0\n  0,5 1,5 2,0\n' 3 "'0,5' looks like a decimal comma"
faulty 'shape IndexedFaceSet\npoint 0 0 0,5\n' 2 'decimal comma'
faulty 'shape IndexedFaceSet\npoint 0 0 0,5, 0 0 0,5, 0 0 0,5\n' 2 'decimal comma'
faulty 'shape ElevationGrid\nheight 0 0 0 -1,5e1\n' 2 'decimal comma'
faulty 'shape ElevationGrid\ncreaseAngle 30,5deg\n' 2 'decimal comma'
faulty 'shape ElevationGrid\ntextureCenter 0,5 0,5\n' 2 'decimal comma'
silent 'commas between numbers' \
    'shape IndexedFaceSet\npoint 0 0 0,1 0 0 , 1,1,0 0.5,1,0\ncoordIndex 0,1,2,-1,0,2 3,\ncreaseAngle,1\n' 144
silent 'a byte-order mark and line ends of other systems' \
    '\xef\xbb\xbfshape IndexedLineSet\r\npoint 0 0 0, 1 0 0\rcoordIndex 0 1\r\n' 100

faulty 'shape IndexedFaceSet\npoint [ 0 0 0, 1 0 0 ]\n' 2 "'\[' is not a number"

# Numbers that are too long, and what is no text.
nines=$(printf '9%.0s' {1..5000})
faulty "shape IndexedLineSet\ncoordIndex 0 $nines\n" 2 '(5000 characters) is not between'
faulty "shape IndexedLineSet\ncoordIndex -$nines\n" 2 'is not between'
faulty "shape ElevationGrid\nheight $nines\n" 2 '(5000 characters) is too large'
faulty "shape ElevationGrid\nxDimension $nines\n" 2 'is not between'
silent 'a whole number of 5,000 digits that is small' \
    "shape IndexedLineSet\npoint 0 0 0, 0 1 0\ncoordIndex 0 ${nines//9/0}1\n" 100
faulty '' 1 'no shape is named'
faulty '\xff\xfes\x00' 1 'not text in UTF-8 (byte ff)'
faulty 'shape ElevationGrid\n# Stra\xdfe\n' 2 'not text in UTF-8 (byte df)'
faulty '\x1b[2J\n' 1 "'?\[2J' belongs to no list"

# Files that cannot be read or written.
good=examples/mast.txt
fails 'a folder as text' 'examples: Is a directory' python3 tools/block.py examples "$work/o"
fails 'no such text' 'none.txt: No such file' python3 tools/block.py none.txt "$work/o"
fails 'a block as text' 'mast.block: line 1: .*not text' python3 tools/block.py examples/mast.block "$work/o"
fails 'no folder for the block' 'none/o: No such file' python3 tools/block.py "$good" "$work/none/o"
fails 'a folder as block' ': Is a directory' python3 tools/block.py "$good" "$work"
cp "$good" "$work/own.txt"
fails 'a block over its text' 'over its own text' python3 tools/block.py "$work/own.txt" "$work/own.txt"
cmp "$good" "$work/own.txt"
tally 'the text is still there' $?
fails_unread 'block.py, output unread' python3 tools/block.py "$good" -
fails_unread 'block.py --help, output unread' python3 tools/block.py --help
fails_unread 'mesh.py, output unread' python3 tools/mesh.py svg examples/mast.mesh
fails_unread 'mesh.py closed, output unread' python3 tools/mesh.py closed examples/wing.mesh
if [ -c /dev/full ]; then
    fails 'block.py, full output' 'No space left' python3 tools/block.py "$good" /dev/full
fi
for form in obj svg closed; do
    for bad in none.mesh examples examples/mast.block examples/mast.txt; do
        fails "$form, $bad in the middle" "^mesh.py: $bad: " \
            python3 tools/mesh.py "$form" examples/mast.mesh "$bad" examples/duct.mesh
    done
done
for angle in 1e400 nan -inf abc "$nines"; do
    fails "--tilt ${angle:0:8}" 'not a number of degrees' python3 tools/mesh.py svg "--tilt=$angle" examples/mast.mesh
    fails "--turn ${angle:0:8}" 'not a number of degrees' python3 tools/mesh.py svg "--turn=$angle" examples/mast.mesh
done
fails 'standard input twice' 'named twice' python3 tools/mesh.py obj - -
fails "painter's order of no mesh" 'none.mesh: No such file' python3 tools/painter.py none.mesh

# With --table the sines and cosines are the table's: of the crease angle 0.5, the rotation 0.25 and half of the angle 2000.
printf 'shape Extrusion\ncreaseAngle 0.5\ntextureRotation 0.25\nspine 0 0 0, 0 1 0\norientation 0 1 0 2000\n' > "$work/turned.txt"
words=$(python3 tools/block.py --table "$work/turned.txt" - | od -An -v -tx1 | tr -d ' \n')
sines=$(printf '3f000000\n3e800000\n447a0000\n' | python3 tools/sine.py)
[ "$sines" = $'3ef57742 3f60a93f\n3e7d5774 3f780aa4\n3f53ae5c 3f0ff810' ] &&
    [[ $words == *3f0000003f60a93f*3e7d57743f780aa4*3f53ae5c3f0ff810 ]]
tally 'block.py --table' $?
sed -i 's/2000$/3000/' "$work/turned.txt"
python3 tools/block.py --table "$work/turned.txt" "$work/made.block" 2> "$work/said" &&
    grep -q 'turned.txt: line 5: warning: half of the angle 3000 is beyond the table' "$work/said" &&
    python3 tools/block.py --strict "$work/turned.txt" "$work/made.block"
tally 'block.py --table, an angle out of reach' $?

# Standard input and output, help, and a wrong command line.
python3 tools/block.py - - < "$good" | cmp - examples/mast.block
tally 'block.py from standard input to standard output' $?
python3 tools/mesh.py obj - < examples/mast.mesh > "$work/named"
python3 tools/mesh.py obj < examples/mast.mesh | cmp - "$work/named" && grep -q '^o mesh' "$work/named"
tally 'mesh.py from standard input' $?
helps block.py FILE.txt OUT.block --strict 'standard input' 'standard output' 'python3 tools/block.py' textureScale bottomRadius
helps mesh.py obj svg closed MESH scene --turn --tilt --open --smooth 'by their numbers' 'status is 0 where every mesh is closed' 'standard input' 'standard output' 'python3 tools/mesh.py'
python3 tools/block.py one.txt 2> "$work/said"
[ $? -eq 2 ] && [ "$(wc -l < "$work/said")" -eq 1 ]
tally 'a wrong command line has status 2' $?

# What would be refused (FORMAT 3).
faulty 'shape ElevationGrid\nxDimension 3\nzDimension 3\nheight 0 0 0\n 0 0 0, 0 0\n' 4 'height has 8 entries, .*has 9'
faulty 'shape ElevationGrid\nxDimension 2\nzDimension 1\nheight 0 0\n' 3 'zDimension is 1'
faulty 'shape ElevationGrid\nzDimension 2\nheight 0 0\n' 1 'xDimension is not given'
zeros=$(yes 0 | head -n 2500 | tr '\n' ' ')
faulty "shape ElevationGrid\nzDimension 50\nxDimension 50\nheight $zeros" 3 '9604 corners'
faulty 'shape Extrusion\nspine 0 0 0\n' 2 'spine has 1 entry'
faulty 'shape Extrusion\nendCap TRUE\ncrossSection\n' 3 'crossSection has no entries'
faulty 'shape IndexedQuadSet\nconvex FALSE\n' 2 'IndexedQuadSet has no field convex'
faulty 'shape IndexedTriangleFanSet\nindex 0 1 2\nnormalPerVertex FALSE\n' 3 'normalPerVertex is FALSE, and IndexedTriangleFanSet'
faulty 'shape IndexedTriangleSet\ncolorPerVertex FALSE\n' 2 'colorPerVertex is FALSE'
faulty "shape IndexedTriangleStripSet\npoint 0 0 0\nindex $(yes 0 | head -n 2733 | tr '\n' ' ')\n" 3 '8193 corners'

# What would not be drawn (FORMAT 6).
faces='shape IndexedFaceSet\npoint 0 0 0, 1 0 0\n  1 1 0, 0 1 0\n'
warned 'shape ElevationGrid\nxDimension 2\nzDimension 2\nheight 1 234.5 0 0 0\n' 4 'height has 5 entries for the 4 points of the grid'
warned "${faces}coordIndex 0 1 2 -1\n0\n1 4 -1\n" 5 'run 1 is not drawn: 4 names no point (there are 4'
warned "${faces}coordIndex 0 1 2 -1 -1 -1\n0 1 -1\n" 5 'run 3 is not drawn: a face has 3 .*, and it has 2$'
warned "${faces}coordIndex 0 1 2 -1 -1\n0 1 2 -7 0 2 3 -1 0 1 3\n" 5 'run 2 is not drawn: -7 names no point .*; only -1 ends a run$'
warned "${faces}coordIndex 0 1 2 -1\n-2 0\n" 5 'run 1 is not drawn: a face .* it has 2; only -1 ends a run$'
warned "${faces}coordIndex 0 1 2 -1\n\n0" 6 'run 1 is not drawn: .* it has 1'
warned "${faces}coordIndex -1 -1\n" 4 'nothing is drawn'
warned "$faces" 1 'nothing is drawn'
warned 'shape IndexedFaceSet\npoint\ncoordIndex 0 1 2 3 4 -1\n' 3 'run 0 is not drawn: 0, 1, 2, 3 .. name no point'
lines='shape IndexedLineSet\npoint 0 0 0, 1 0 0, 1 1 0\n'
warned "${lines}coordIndex 0 1 -1\n1 2 -2147483648 0\n" 4 'run 1 is broken: -2147483648 names no point .*; only -1 ends a run$'
warned "${lines}coordIndex 0 1 -1\n0 1\n3 2 -1\n" 4 'run 1 is broken: 3 names no point'
warned "${lines}coordIndex 0 1 -1\n0 3 2 -1\n" 4 'run 1 is not drawn: 3 names no point'
warned "${lines}coordIndex 0 1 -1\n -1 2\n" 4 'run 2 is not drawn: a line has 2'
primitives='point 0 0 0, 1 0 0\n  1 1 0, 0 1 0\n'
warned "shape IndexedTriangleSet\n${primitives}index 0 1 2\n 0 2 4 0 2 3\n" 5 'triangle 1 is not drawn: 4 names no point (there are 4'
warned "shape IndexedTriangleSet\n${primitives}index 0 1 2\n -1 0 2\n" 5 'triangle 1 is not drawn: -1 names no point .*; nothing parts entries here: they go in threes$'
warned "shape IndexedTriangleSet\n${primitives}index 0 1 2\n 3 0\n" 5 'the last triangle is not drawn: a triangle has 3 entries, and it has 2'
warned "shape IndexedQuadSet\n${primitives}index 0 1 2 3\n 0 1 2\n" 5 'the last quad is not drawn: a quad has 4 entries, and it has 3'
warned "shape IndexedTriangleFanSet\n${primitives}index 0 1 2 -1\n 9 1 2 3\n" 5 'run 1 is not drawn: 9 names no point'
warned "shape IndexedTriangleFanSet\n${primitives}index 0 1 2 -1\n 1 3\n" 5 'run 1 is not drawn: a fan has 3 entries or more, and it has 2'
warned "shape IndexedTriangleStripSet\n${primitives}index 0 1 2 -1 -1\n 0 1 3 2 9\n" 5 '1 of the 3 triangles of run 2 is not drawn: 9 names no point'
warned "shape IndexedTriangleStripSet\n${primitives}index 0 1 3 2 -7\n" 4 '1 of the 3 triangles of run 0 is not drawn: -7 names no point .*; only -1 ends a run$'
warned "shape IndexedTriangleFanSet\n${primitives}index 0 1 2 -1\n-2 0\n" 5 'run 1 is not drawn: a fan .* it has 2; only -1 ends a run$'
warned "shape IndexedTriangleSet\n${primitives}index 0 1 2\n 0 1 -7\n" 5 'triangle 1 is not drawn: -7 names no point (there are 4, numbered from 0)$'
faulty "shape IndexedQuadSet\n${primitives}coordIndex 0 1 2 3\n" 4 'IndexedQuadSet has no field coordIndex: its list is index'
warned "shape IndexedTriangleFanSet\n${primitives}index -1 -1\n" 4 'nothing is drawn: index has no run'
warned "shape IndexedTriangleStripSet\n${primitives}" 1 'nothing is drawn: index has no entries'
silent 'a strip, a fan and empty runs' "shape IndexedTriangleStripSet\n${primitives}index -1 0 1 3 2 -1 -1 0 1 2\n" 156
silent 'empty runs' "${faces}coordIndex -1 -1 0 1 2 -1 -1 0 2 3 -1 -1\n" 164

# What would be drawn without its colour, normal or texture point (FORMAT 7).
two="${faces}coordIndex 0 1 2 -1\n0 2 3 -1\n"
red='color 1 0 0'
each='colorPerVertex FALSE\n'
warned "${two}$red, 1 0 0, 1 0 0\n" 5 'run 1 has no color at 1 of its 3 entries: 3 names no color (there are 3'
warned "${two}$red\ncolorIndex 0 0 0 -1 0 0\n" 5 'run 1 has no color at 1 of its 3 .*: colorIndex has 6 entries'
warned "${two}$red\ncolorIndex 0 0 1 -1 0 0 0\n" 4 'run 0 has no color .*: 1 names no color (color has 1 entry)'
warned "${two}normal 0 0 1\nnormalIndex 0 0 0 0 0 -1 0\n" 5 'run 1 has no normal at 1 .*: normalIndex has -1 there'
warned "${two}$red\ncolorIndex 0 0 0 0 0 -7 0\n" 5 'run 1 has no color at 1 .*: colorIndex has -7 there'
warned "${two}texCoord 0 0, 1 0\ntexCoordIndex 0 0 1 -1 0 1 2\n" 5 'run 1 has no texCoord at 1 .*: 2 names no texCoord'
warned "${two}$each$red\n" 5 'run 1 has no color of its own: color has 1 entry'
warned "${two}$each$red\ncolorIndex 0\n" 5 'run 1 has no color of its own: colorIndex has 1 entry, too few'
warned "${two}$each$red\ncolorIndex 0 -1 0\n" 5 'run 1 has no color of its own: colorIndex has -1 there'
warned "${two}${each}colorRGBA 1 0 0 1\ncolorIndex 7 0\n" 4 'run 0 has no color of its own: 7 names no color'
warned "${two}colorIndex 0 0 0 -1 0 0 0 -1\n" 6 'colorIndex is not read'
warned "${lines}coordIndex 0 1 -1 1 2\n$each$red\n" 3 'run 1 has no color of its own'
warned "shape IndexedTriangleSet\n${primitives}index 0 1 2\n 0 2 3\n$red, 1 0 0, 1 0 0\n" 5 'triangle 1 has no color at 1 of its 3 points: 3 names no color'
silent 'a value for each face, empty runs counted' "${faces}coordIndex -1 0 1 2 -1\n$each$red, 0 0 1\n" 160
silent 'values that nothing needs' "${two}$red\ncolorIndex 0 0 0 9 0 0 0 -7 9\n" 196
grid='shape ElevationGrid\nxDimension 2\nzDimension 3\nheight 0 0 0 0 0 0\n'
warned "${grid}$red\n" 5 'color has 1 entry for the 6 points of the grid'
warned "${grid}${each}colorRGBA 1 0 0 1\n" 6 'colorRGBA has 1 entry for the 2 quads of the grid'
warned "${grid}texCoord 0 0, 1 0\n" 5 'texCoord has 2 entries for the 6 points'
silent 'a value for each quad' "${grid}${each}$red, 0 0 1\n" 116
warned 'shape Extrusion\nspine 0 0 0, 0 1 0, 0 2 0\nscale 1 1, 2 2\n' 3 'scale has 2 entries for 3 spine points'
warned 'shape Extrusion\ncrossSection 0 0, 1 0, 0 0\nendCap TRUE\n' 3 'endCap is not drawn'
silent 'a ribbon without caps' 'shape Extrusion\ncrossSection 0 0, 1 0\n' 136

zero='00000000 00000000'
# Parts (FORMAT 17): what is not understood, what is replaced and what is left out. What is written is the call's numbers.
faulty 'shape Cylinder\nstacks 3\n' 2 'Cylinder has no field stacks'
faulty 'shape Sphere\nheight 3\n' 2 'Sphere has no field height'
faulty 'shape Cone\nradius 3\n' 2 'Cone has no field radius'
faulty 'shape IndexedFaceSet\nslices 3\n' 2 'IndexedFaceSet has no field slices'
faulty 'shape PointSet\ncoordIndex 0\n' 2 'PointSet has no field coordIndex$'
faulty 'shape Sphere\nslices 2.5\n' 2 'not a whole number'
faulty 'shape Sphere\nradius 1\nslices -1\n' 3 'not between 0 and 4294967295'
faulty 'shape Sphere\nslices 3 4\n' 2 'slices has 1 value'
faulty 'shape Box\nsize 1 2\n' 2 'size has 3 values'
faulty 'shape Box\nsize 1,5 2 2\n' 2 'decimal comma'
faulty 'shape Cylinder\ntop 1\n' 2 'TRUE or FALSE'
faulty 'shape Cone\nheight 1\nheight 2\n' 3 'height is given twice'
faulty "shape PointSet\npoint\n$(yes '0 0 0' | head -n 8192 | tr '\n' ',')\n 0 0 0\n" 4 'more than 8192'
warned 'shape Sphere\nradius 0\n' 2 'radius has 0, which is not above 0: 1 is taken'
warned 'shape Cylinder\nradius 2\nheight -3\n' 3 'height has -3, which is not above 0: 2 is taken'
warned 'shape Cone\nbottomRadius 1e-50\n' 2 'bottomRadius has 0, which is not above 0: 1 is taken'
warned 'shape Box\nsize 1 -0 3\n' 2 'size has -0, which is not above 0: 2 is taken'
warned 'shape Cone\nslices 2\n' 2 'slices 2 is held to 3'
warned 'shape Cylinder\nslices 1025\n' 2 'slices 1025 is held to 1024'
warned 'shape Sphere\nstacks 1\n' 2 'stacks 1 is held to 2'
warned 'shape Sphere\nstacks 4294967295\n' 2 'stacks 4294967295 is held to 1024'
warned 'shape Cylinder\nside FALSE\ntop FALSE\nbottom FALSE\n' 1 'nothing is drawn: side, top, bottom are FALSE'
warned 'shape Cone\nside FALSE\nbottom FALSE\n' 1 'nothing is drawn: side, bottom are FALSE'
warned 'shape PointSet\npoint 0 0 0, 1 0 0\ncolor 1 0 0\n' 3 'color has 1 entry for 2 points: the colours are left out whole'
warned 'shape PointSet\npoint 0 0 0, 1 0 0\ncolorRGBA\n' 3 'colorRGBA has no entries for 2 points'
warned 'shape PointSet\ncolor 1 0 0\n' 1 'nothing is drawn: point has no entries'
silent 'the least size, and slices and stacks at their ends' 'shape Sphere\nradius 1e-45\nslices 3\nstacks 1024\n' 37
silent 'more colours than points' 'shape PointSet\npoint 0 0 0\ncolor 1 0 0, 0 1 0\n' 114
part_of() { # text, and the lines that are written for it
    printf "$1" | python3 tools/block.py - - | cmp - <(printf "$2")
    tally "part of $1" $?
}
part_of 'shape Sphere\n' 'sphere 3f800000 32 16 0\ntransform 0\n'
part_of 'shape Box\nsize 1 2 3\ntexture TRUE\n' 'box 3f800000 40000000 40400000 1\ntransform 0\n'
part_of 'shape Cylinder\ntop FALSE\nslices 7\n' 'cylinder 3f800000 40000000 1 0 1 7 0\ntransform 0\n'
part_of 'shape Cone\nbottom FALSE\nheight 1\ntextureScale 2 3\n' \
    "cone 3f800000 3f800000 1 0 32 0\ntransform 8 $zero 00000000 3f800000 40000000 40400000 $zero\n"
part_of 'shape PointSet\npoint 1 2 3\ncolorRGBA 0 0 1 1\n' \
    "point_set 1 1\npoints 3 3f800000 40000000 40400000\ncolours 4 $zero 3f800000 3f800000\n"
printf 'shape Box\ntextureRotation 0.25\n' > "$work/turned.txt"
python3 tools/block.py --table "$work/turned.txt" - | grep -q "^transform 8 $zero 3e7d5774 3f780aa4 "
tally 'block.py --table of a part' $?

# Scenes: what is named is read from the scene's folder, turned, then moved, and coloured where it has no colours.
place() { # name, words of the line, and the point that (1, 2, 3) becomes
    mkdir -p "$work/scene"
    printf 'mesh 1 0 1 1 0\nv 0 3f800000 40000000 40400000\np 0\n' > "$work/scene/one.mesh"
    printf 'scene\n# a comment\n\none.mesh %s\n' "$2" > "$work/scene/all.scene"
    printf 'o one\nv %s\np 1\n' "$3" > "$work/placed"
    python3 tools/mesh.py obj "$work/scene/all.scene" | sed 's/[0-9.-]*e-[0-9]*/0/g' | cmp - "$work/placed"
    tally "scene: $1" $?
}
place 'as it is' '' '1 2 3'
place 'moved' 'translation 1 -2 0.5' '2 0 3.5'
place 'turned about X' 'rotation 2 0 0 90deg' '1 -3 2'
place 'turned about Y' 'rotation 0 1 0 90deg' '3 2 -1'
place 'turned about Z, then moved' 'translation 10 0 0, rotation 0 0 1 90deg' '8 1 3'
place 'turned about a diagonal' 'rotation 1 1 1 120deg' '3 1 2'
place 'coloured' 'color 1 0.5 0' '1 2 3 1 0.5 0'
misplaced() { # words of the line, and words of the fault
    printf 'scene\n\none.mesh %s\n' "$1" > "$work/scene/bad.scene"
    fails "scene: $2" "$2" python3 tools/mesh.py svg "$work/scene/bad.scene"
}
misplaced 'scale 1 1 1' "bad.scene: line 3: 'scale' is not one of rotation, translation, color"
misplaced 'translation 1 1' 'bad.scene: line 3: translation has 3 values'
misplaced 'translation 1 1 x' "bad.scene: line 3: 'x' is not a number"
misplaced 'rotation 0 0 0 1' 'bad.scene: line 3: rotation has no axis'
misplaced 'color 1 1 1 color 1 1 1' 'bad.scene: line 3: color is given twice'
printf 'scene\nnone.mesh\n' > "$work/scene/bad.scene"
fails 'a scene of no mesh' 'scene/none.mesh: No such file' python3 tools/mesh.py obj "$work/scene/bad.scene"
printf 'scene\nbad.scene\n' > "$work/scene/bad.scene"
fails 'a scene in a scene' 'bad.scene: this is not what sitemesh prints' python3 tools/mesh.py obj "$work/scene/bad.scene"
(cd examples && python3 ../tools/mesh.py svg - < site.scene) | cmp - examples/site.svg
tally 'a scene from standard input' $?
python3 tools/mesh.py obj examples/site.scene > "$work/site.obj"
[ "$(grep -c '^o ' "$work/site.obj")" -eq 13 ] && [ "$(grep -c '^o drum$' "$work/site.obj")" -eq 2 ] &&
    [ "$(grep -c '^p ' "$work/site.obj")" -eq 10 ]
tally 'OBJ of the scene: objects and points' $?

# Points are dots, each with its colour; one that is not finite is left out.
python3 tools/mesh.py svg tools/cases/dots.mesh > "$work/dots.svg"
[ "$(grep -o '<circle .* fill="#[0-9a-f]*"/>' "$work/dots.svg" | grep -o '#[0-9a-f]*' | sort | tr -d '\n')" = '#0000ff#00ff00#ff0000' ]
tally 'dots of a PointSet' $?
printf 'o dots\nv 0 0 0 1 0 0\nv 1 0.5 0 0 1 0\nv 9.9999461e-41 -0 3 0 0 1\np 1\np 2\np 3\n' > "$work/dots.obj"
python3 tools/mesh.py obj tools/cases/dots.mesh | cmp - "$work/dots.obj"
tally 'OBJ of a PointSet' $?
sed '3s/v 1 3f800000/v 1 7f800000/' tools/cases/dots.mesh > "$work/torn.mesh"
python3 tools/mesh.py svg "$work/torn.mesh" 2> "$work/said" | grep -c '<circle' | grep -qx 2 &&
    grep -q 'left out 1 of 3 vertices, .* and with them 1 of 3 points' "$work/said"
tally 'a point that is not finite' $?
# A line set without a line has vertices and no dots.
printf 'mesh 1 0 1 1 0\nv 0 00000000 00000000 00000000\n' | python3 tools/mesh.py svg > "$work/dots.svg" 2> "$work/said"
! grep -q '<circle' "$work/dots.svg" && grep -q 'the picture is empty' "$work/said"
tally 'vertices without dots' $?

# A vertex that is not finite: the rest is drawn.
printf 'mesh 5 6 0 0 1\n' > "$work/torn.mesh"
for x in 00000000 7fc00000 3f800000 40000000 ff800000; do
    printf 'v 0 %s 00000000 %s c 3f800000 %s 3f800000\n' "$x" "$x" "$zero" >> "$work/torn.mesh"
done
sed -i -e '4s/\(v 0 3f800000\) 00000000/\1 40000000/' -e '5s/c 3f800000/c 7f800000/' "$work/torn.mesh"
printf 't 0 1 2\nt 0 2 3\n' >> "$work/torn.mesh"
for form in obj svg; do
    python3 tools/mesh.py "$form" "$work/torn.mesh" > "$work/torn.$form" 2> "$work/said" &&
        grep -q 'torn.mesh: left out 2 of 5 vertices, .* and with them 1 of 2 triangles' "$work/said" &&
        grep -q 'torn.mesh: 1 normals, colours or texture points are not finite' "$work/said"
    tally "$form: the rest of a torn mesh, and what is left out" $?
done
printf 'o torn\nv 0 0 0 1 0 0\nv 1 2 1 1 0 0\nv 2 0 2 1 1 1\nf 1 2 3\n' | cmp - "$work/torn.obj"
tally 'OBJ of a torn mesh' $?
[ "$(grep -c 'd="M.*z"' "$work/torn.svg")" -eq 1 ]
tally 'picture of a torn mesh' $?

# Closed or not, by the points' numbers: what is said on standard output, and the status.
closed() { # name, status, what is said, then the meshes
    local name=$1 status=$2 said=$3
    shift 3
    python3 tools/mesh.py closed "$@" > "$work/out" 2> "$work/said"
    [ $? -eq "$status" ] && [ ! -s "$work/said" ] && printf "$said" | cmp - "$work/out"
    tally "closed: $name" $?
}
whole='examples/wing.mesh: closed, 48 edges\n'
gap='examples/gap.mesh: open at 4 of 47 edges\n'
gap+='edge 3 4: 0 there, 1 back\nedge 3 9: 1 there, 0 back\nedge 4 10: 0 there, 1 back\nedge 9 10: 1 there, 0 back\n'
closed 'the wing' 0 "$whole" examples/wing.mesh
closed 'the wing with a gap' 3 "$gap" examples/gap.mesh
closed 'both' 3 "$gap$whole" examples/{gap,wing}.mesh
printf 'scene\nwing.mesh rotation 0 1 0 1\nwing.mesh translation 0 0 40\n' > "$work/scene/wings.scene"
cp examples/{wing,gap}.mesh "$work/scene"
whole="$work/scene/wing.mesh: closed, 48 edges\n"
closed 'a scene' 0 "$whole$whole" "$work/scene/wings.scene"
whole='standard input: closed, 48 edges\n'
sed -E 's/^t (.*) (.*) (.*)/t \1 \3 \2/' examples/wing.mesh > "$work/wing.mesh"
closed 'every triangle turned round' 0 "$whole" < "$work/wing.mesh"
sed -E 's/^v ([0-9]+) ([0-9a-f]{8})/v \1 7fc00000/' examples/wing.mesh > "$work/wing.mesh"
closed 'positions that are NaN' 0 "$whole" - < "$work/wing.mesh"
sed -E '0,/^t /s/^t (.*) (.*) (.*)/t \1 \3 \2/' examples/wing.mesh > "$work/wing.mesh"
closed 'one triangle turned round' 3 'standard input: open at 3 of 48 edges
edge 0 1: 0 there, 2 back\nedge 0 6: 2 there, 0 back\nedge 1 6: 0 there, 2 back\n' < "$work/wing.mesh"
closed 'a triangle that names a point twice' 0 'standard input: closed, 1 edge\n' < <(
    printf 'mesh 2 3 1 0 0\nv 7 %s 00000000\nv 8 %s 3f800000\nt 0 1 1\n' "$zero" "$zero")
# Both sides of a triangle; two of its corners are at one place, first two vertices of one point, then two points.
sides="mesh 4 6 1 0 0\nv 4 $zero 00000000\nv 5 $zero 3f800000\nv 6 $zero 40000000\nv 6 $zero 40000000\nt 0 1 2\nt 0 3 1\n"
closed 'two vertices of one point' 0 'standard input: closed, 3 edges\n' < <(printf "$sides")
closed 'two points at one place' 3 'standard input: open at 4 of 5 edges
edge 4 6: 0 there, 1 back\nedge 4 7: 1 there, 0 back\nedge 5 6: 1 there, 0 back\nedge 5 7: 0 there, 1 back
standard input: closed if points at one place are taken for one\n' < <(
    printf "${sides/40000000\\nv 6/40000000\\nv 7}")
closed 'no triangles' 3 'examples/paths.mesh: no triangles\nexamples/marks.mesh: no triangles\n' examples/{paths,marks}.mesh
closed 'an empty mesh' 3 'standard input: no triangles\n' < <(printf 'mesh 0 0 1 0 0\n')
# The seam of the duct: two columns of 7 edges, and at each cap an edge of the side and one of the cap.
python3 tools/mesh.py closed examples/duct.mesh | head -n 1 | grep -qx 'examples/duct.mesh: open at 18 of 195 edges'
tally 'closed: the seam of the duct' $?
python3 tools/mesh.py closed examples/drum.mesh | tail -n 1 | grep -qx '.*: of a part it cannot be asked, since its vertices are not joined'
tally 'closed: of a part' $?
python3 tools/mesh.py closed --open examples/wing.mesh > "$work/said" 2>&1
[ $? -eq 2 ] && grep -q 'open is of svg alone' "$work/said"
tally 'open edges in a picture alone' $?
for name in wing gap; do
    python3 tools/mesh.py svg --open "examples/$name.mesh" | cmp - "examples/$name.svg"
    tally "picture of examples/$name.mesh" $?
done
python3 tools/mesh.py svg examples/gap.mesh > "$work/gap.svg"
diff "$work/gap.svg" examples/gap.svg | sed -n 's/^[<>] .*d="M.*L.*"><title>\(.*\)<\/title><\/path>$/\1/p' > "$work/said"
printf "${gap#*\\n}" | cmp - "$work/said" && [ "$(diff "$work/gap.svg" examples/gap.svg | grep -c '^[<>]')" -eq 4 ] &&
    ! grep -q '<title>' examples/wing.svg
tally 'open edges are red lines over the picture' $?
printf 'scene\ngap.mesh translation 0 0 40\nwing.mesh\n' > "$work/scene/gaps.scene"
python3 tools/mesh.py svg --open --turn 210 "$work/scene/gaps.scene" > "$work/gap.svg"
[ "$(grep -c '<title>edge' "$work/gap.svg")" -eq 4 ] && python3 -c "$well_formed" "$work/gap.svg"
tally 'open edges of a scene, behind what is drawn' $?
sed -E 's/^v 9 ([0-9a-f]{8})/v 9 7fc00000/' examples/gap.mesh | python3 tools/mesh.py svg --open > "$work/gap.svg" 2> "$work/said"
[ "$(grep -c '<title>edge' "$work/gap.svg")" -eq 2 ] && grep -q '2 open edges are not drawn' "$work/said"
tally 'open edges at a point that is not finite' $?

# A long thin triangle whose corners, rounded, are off its own plane: the order is still found.
printf '%s\n' 'mesh 3 3 0 0 0' 'v 0 4cbebc20 00000000 bf800000' 'v 1 3a83126f ba83126f 7f61b1e6' \
    'v 2 3a83126f 4cbebc20 7149f2ca' 't 0 1 2' > "$work/thin.mesh"
timeout 20 python3 tools/mesh.py svg "$work/thin.mesh" | grep -q 'd="M.*z"'
tally 'picture of a thin triangle' $?

no_mesh 'no 6\n' 'refused, number 6, no shape'
no_mesh 'no 9\n' 'refused, number 9, attributes'
no_mesh 'no 10\n' 'the part was refused, number 10, pairs'
no_mesh 'no 12\n' 'not what sitemesh prints'
no_mesh 'mesh 1 0 1 0 0\nv 0 00000000 00000000 00000000\np 0\n' 'line 3'
no_mesh 'mesh 1 0 1 1 0\nv 0 00000000 00000000 00000000\np 1\n' 'line 3'
no_mesh '' 'not what sitemesh prints'
no_mesh "mesh $nines 0 1 0 0\n" 'counts are wanted'
no_mesh 'long\n' 'longer than sitemesh reads'
no_mesh 'hello\n' 'not what sitemesh prints'
no_mesh 'mesh 1 0 1 0 0\nv 0 00000000 00000000\n' 'line 2'
no_mesh 'mesh 1 3 1 0 0\nv 0 00000000 00000000 00000000\nt 0 0 1\n' 'line 3'
no_mesh 'mesh 1 0 1 0 0\nv 0 00000000 7fc00000 00000000\n' 'not finite' 'obj svg'
no_mesh 'mesh 2 0 1 0 0\nv 0 00000000 00000000 00000000\n' 'first line says'

tell_tally
