#!/usr/bin/env bash
# Proves and builds the program run_bench and measures a run file of 990,099 triggers of one list of two bytes, with a pump step
# behind each hundred: what `toml` takes for its text, what `Run::read` takes, which calls it, and what `run_serial` takes, in
# microseconds, each the least of five; and the peak of each process's memory over the length of the text.
set -eu
cd "$(dirname "$0")"
program=$(./build.sh run_bench)
file=$(mktemp)
log=$(mktemp)
trap 'rm -f "$file" "$log"' EXIT
awk 'BEGIN {
  print "channels = 1\nimage_len = 2\ncaps = [1024]"
  print "setup = [\"d6\", \"d5000100\", \"d400000001\", \"d30000000001\", \"e20000000000\","
  print "  \"e1ff020000000000\", \"e000000000000100\", \"de010000\"]"
  printf "steps = ["
  for (i = 1; i <= 990099; i++) {
    printf "\"trigger 0 %d aabb\",\n", i
    if (i % 100 == 0) printf "\"pump\",\n"
  }
  print "]"
}' > "$file"
size=$(wc -c < "$file")
echo "text $size bytes"
for word in toml run; do
    for _ in 1 2 3 4 5; do
        /usr/bin/time -f 'peak %M' "$program" "$word" "$file" 2>&1
    done | sed "s/^peak/$word.peak/" >> "$log"
done
grep -E '^(bytes|due)' "$log" | sort -u
awk -v size="$size" '
  $1 ~ /^(toml|read|run)$/ { if (!($1 in least) || $2 < least[$1]) least[$1] = $2 }
  $1 ~ /peak/ { if ($2 > peak[$1]) peak[$1] = $2 }
  END {
    for (what in least) printf "%s %d us, %.2f times toml\n", what, least[what], least[what] / least["toml"]
    for (what in peak) printf "%s %d KiB, %.2f times the text\n", what, peak[what], peak[what] * 1024 / size
  }' "$log"
