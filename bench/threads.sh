#!/usr/bin/env bash
# Proves and builds the program run_bench and measures runs of 1, 2, 4 and 8 event channels, each with a list of two bytes and a
# ring of 1024 places: `run_serial` and `run_threads` on the same steps, in which each channel is triggered once and then a pump
# step comes, which a run in threads passes over. The least of five processes each, in nanoseconds a trigger, and their ratio.
set -eu
cd "$(dirname "$0")"
program=$(./build.sh run_bench)
file=$(mktemp)
log=$(mktemp)
trap 'rm -f "$file" "$log"' EXIT
for channels in 1 2 4 8; do
    awk -v n="$channels" 'BEGIN {
      rounds = int(999999 / (n + 1))
      printf "channels = %d\nimage_len = 2\ncaps = [", n
      for (c = 0; c < n; c++) printf "1024,"
      printf "]\nsetup = [\"d6\", \"d500%02x00\"", n
      for (c = 0; c < n; c++) printf ", \"d400%02x0001\"", c
      for (c = 0; c < n; c++) printf ", \"d300%02x000001\"", c
      for (c = 0; c < n; c++) printf ", \"e200%02x000000\", \"e1ff020000000000\", \"e000%02x00%02x000100\"", c, c, c
      for (c = 0; c < n; c++) printf ", \"de01%02x00\"", c
      printf "]\nsteps = ["
      for (i = 0; i < rounds; i++) {
        for (c = 0; c < n; c++) printf "\"trigger %d %d aabb\",\n", c, i
        printf "\"pump\",\n"
      }
      print "]"
    }' > "$file"
    for _ in 1 2 3 4 5; do
        "$program" threads "$file"
    done > "$log"
    awk -v n="$channels" '
      !($1 in least) || $2 < least[$1] { least[$1] = $2; bytes[$1] = $3 }
      END {
        triggers = int(999999 / (n + 1)) * n
        printf "%d channels: one thread %.0f ns, threads %.0f ns, %.2f of it (%d and %d bytes)\n", n,
          least["serial"] * 1000 / triggers, least["threads"] * 1000 / triggers, least["threads"] / least["serial"],
          bytes["serial"], bytes["threads"]
      }' "$log"
done
