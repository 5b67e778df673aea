#!/usr/bin/env bash
# Makes the blocks, the meshes and the pictures again from the texts, with target/bin/sitemesh (bash tools/build sitemesh)
# or the program that SITEMESH names, and through the static library (a C compiler as cc, and bash tools/build host) with
# hosts/part.c for parts and hosts/call.c for what a terminal gets: grey where a colour is missing.
set -eu
cd "$(dirname "$0")/.."
program=${SITEMESH:-target/bin/sitemesh}
site='ground hospital duct mast ambulance paths'
parts='drum cabinet beacon dome marks'
bay='hall gables roof'
for name in $site annex $bay wing gap pole; do
    python3 tools/block.py "examples/$name.txt" "examples/$name.block"
    "$program" < "examples/$name.block" > "examples/$name.mesh"
done
cc -I hosts hosts/part.c target/staticlib/libhost.a -o target/part
for name in $parts; do
    python3 tools/block.py "examples/$name.txt" "examples/$name.part"
    target/part "examples/$name.part" > "examples/$name.mesh"
done
python3 tools/mesh.py svg examples/site.scene > examples/site.svg
python3 tools/mesh.py svg examples/{hall,gables,roof}.mesh > examples/bay.svg
for name in wing gap; do
    python3 tools/mesh.py svg --open "examples/$name.mesh" > "examples/$name.svg"
done
python3 tools/mesh.py svg --smooth --turn 105 --tilt 20 examples/pole.mesh > docs/mast-after.svg
cc -I hosts hosts/call.c target/staticlib/libhost.a -o target/call
target/call examples/annex.block grey > examples/grey/annex.mesh
python3 tools/mesh.py svg examples/grey/annex.mesh > examples/annex.svg
