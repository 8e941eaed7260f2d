#!/usr/bin/env bash
# Proves and builds a program of bench/ and prints the path of what was built: bench/build.sh NAME. The file bench/NAME/libraries
# has the crates of this repository that it calls and those below them, lowest first, and behind the word -- those of the kit.
#
# It is built in the folder DAQ_BENCH, ~/.cache/daq_bench where that isn't set, beside copies of these crates: rt ci wants each
# .rt and .antt file of the repository to be of a crate that it proves, so the sources in bench/NAME have .txt behind their names.
set -eu
name=${1:?the name of a program of bench/}
top=$(cd "$(dirname "$0")/.." && pwd)
all=$(tr '\n' ' ' < "$top/bench/$name/libraries")
libraries=${all%%-- *}
others=${all##*-- }
build=${DAQ_BENCH:-${XDG_CACHE_HOME:-$HOME/.cache}/daq_bench}/$name

rm -rf "$build/crates/$name/src" "$build/crates/$name/specs" "$build/crates/$name/proofs"
mkdir -p "$build/crates/$name/out"
for crate in $libraries; do
    mkdir -p "$build/crates/$crate/out"
    # A library that is proved here already is taken where none was made there yet; rt tells whether it is of these sources.
    if [ -d "$top/crates/$crate/out/rlib" ] && [ ! -d "$build/crates/$crate/out/rlib" ]; then
        cp -R "$top/crates/$crate/out/rlib" "$build/crates/$crate/out/"
    fi
    for part in src specs proofs; do
        rm -rf "$build/crates/$crate/$part"
        if [ -d "$top/crates/$crate/$part" ]; then
            cp -R "$top/crates/$crate/$part" "$build/crates/$crate/"
        fi
    done
    grep "^$crate:" "$top/crates.txt"
done > "$build/crates.txt"
echo "$name: $libraries $others" >> "$build/crates.txt"
cp "$top/HANDLES" "$build/"

cd "$top/bench/$name"
find . -name '*.txt' | while read -r file; do
    mkdir -p "$build/crates/$name/$(dirname "$file")"
    cp "$file" "$build/crates/$name/${file%.txt}"
done

cd "$build/crates/$name"
if ! rt run > out/build.log 2>&1; then
    echo "bench/build.sh: $name was not built: see $PWD/out/build.log" >&2
    exit 3
fi
echo "$PWD/out/$name"
