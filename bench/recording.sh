#!/usr/bin/env bash
# Measures how fast xcpread sums recordings of 100 MB up, beside a plain copy of the same bytes, five times in turn: one of samples
# of eight packets of 64 bytes, and one of samples of one packet of 3 bytes.
set -eu
cd "$(dirname "$0")/.."
room=$(mktemp -d)
trap 'rm -rf "$room"' EXIT
cc -std=c99 -O2 -Wall -Wextra -Werror -pedantic -o "$room/recording" bench/recording.c
./prove > /dev/null
"$room/recording" make "$room"
for _ in 1 2 3 4 5; do
    for run in long short; do
        "$room/recording" copy "$room/$run.frames"
        start=$(date +%s%N)
        out/proved/xcpread "$room/$run.toml" "$room/$run.frames" > "$room/out"
        end=$(date +%s%N)
        echo "xcpread $run.toml $run.frames: $(((end - start) / 1000000)) ms, $(tail -n 1 "$room/out" | awk '{ print $3 }') samples"
    done
done
