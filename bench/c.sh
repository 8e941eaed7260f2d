#!/usr/bin/env bash
# Proves and builds the library for C and the program daq_bench, and measures an engine through the calls for C and without them,
# five times in turn: a line for each DAQ list, in tenths of a nanosecond a sample, in one thread, with a ring of 64 places.
set -eu
source "$(dirname "$0")/../tools/sources.sh"
cd "$top"
room=$(mktemp -d)
trap 'rm -rf "$room"' EXIT
tools/c_library --if-changed > "$room/log" 2>&1 || { tail -n 12 "$room/log" >&2; exit 3; }
build_c "$room/calls" -O2 -Wall -Wextra -Werror -pedantic bench/calls.c
program=$(bench/build.sh daq_bench)
for _ in 1 2 3 4 5; do
    "$room/calls"
    "$program" calls
done
