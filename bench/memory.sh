#!/usr/bin/env bash
# Proves and builds the library for C, and measures a slave's triggers over 16 bytes, over a segment of 1 MB and over two, eight times in
# turn: a line for each memory, in tenths of a nanosecond a trigger, in one thread.
set -eu
source "$(dirname "$0")/../tools/sources.sh"
cd "$top"
room=$(mktemp -d)
trap 'rm -rf "$room"' EXIT
tools/c_library --if-changed > "$room/log" 2>&1 || { tail -n 12 "$room/log" >&2; exit 3; }
build_c "$room/memory" -O2 -Wall -Wextra -Werror -pedantic bench/memory.c
for _ in 1 2 3 4 5 6 7 8; do
    "$room/memory"
done
