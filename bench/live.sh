#!/usr/bin/env bash
# Proves and builds the library for C, and measures how many samples a second a slave gives away by UDP on loopback (bench/live.c).
set -eu
source "$(dirname "$0")/../tools/sources.sh"
cd "$top"
room=$(mktemp -d)
trap 'rm -rf "$room"' EXIT
tools/c_library --if-changed > "$room/log" 2>&1 || { tail -n 12 "$room/log" >&2; exit 3; }
build_c "$room/live" -O2 -Wall -Wextra -Werror -pedantic bench/live.c
"$room/live"
