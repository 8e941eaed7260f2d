#!/usr/bin/env bash
# Makes random run files over rings of bytes and carries each out by the built program xcpdaq and by the C example `run`: both
# must print the same frames and the same account. The program looks at its rings beside each pump, the C example never does, so
# which samples are dropped must not depend on who looks. bench/rings_alike.sh [COUNT [SEED]]: 300 run files from seed 1, where
# nothing is said. The runs that differ are kept, and named. It wants python3.
set -eu
source "$(dirname "$0")/../tools/sources.sh"
cd "$top"
count=${1:-300}
seed=${2:-1}
room=$(mktemp -d)
program=$PWD/crates/xcpdaq/out/xcpdaq
(cd crates/xcpdaq && rt run -- ../../examples/first_run.toml) > "$room/log" 2>&1 || { tail -n 12 "$room/log" >&2; exit 3; }
tools/c_library --if-changed > "$room/log" 2>&1 || { tail -n 12 "$room/log" >&2; exit 3; }
build_c "$room/run" -O2 -Wall -Wextra -Werror -pedantic examples/c/run.c

# prints a run: one to three event channels, each with one or two DAQ lists of short or long records, whose rings often fill
make_run() {
    python3 - "$1" <<'PYTHON'
import random
import sys

rand = random.Random(int(sys.argv[1]))
channels = rand.randint(1, 3)
image_len = rand.randint(1, 63)
setup = ["d6"]
lists = [c for c in range(channels) for _ in range(rand.randint(1, 2))]
setup.append("d500%02x00" % len(lists))
odts = [rand.choice([1, 1, 1, 2, 4, 8]) for _ in lists]
for l, count in enumerate(odts):
    setup.append("d400%02x00%02x" % (l, count))
for l, count in enumerate(odts):
    setup += ["d300%02x00%02x01" % (l, k) for k in range(count)]
for l, count in enumerate(odts):
    for k in range(count):
        size = rand.randint(1, image_len)
        at = rand.randint(0, image_len - size)
        setup += ["e200%02x00%02x00" % (l, k), "e1ff%02x00%02x000000" % (size, at)]
for l, c in enumerate(lists):
    setup.append("e000%02x00%02x00%02x00" % (l, c, rand.choice([1, 1, 2, 3])))
    setup.append("de01%02x00" % l)
steps = []
for _ in range(rand.randint(1, 120)):
    what = rand.random()
    l = rand.randrange(len(lists))
    if what < 0.62:
        image = bytes(rand.randrange(256) for _ in range(image_len)).hex()
        steps.append("trigger %d 0 %s" % (lists[l], image))
    elif what < 0.94:
        steps.append("pump")
    else:
        steps.append("%s %d %d" % (rand.choice(["stop", "start"]), lists[l], l))
caps = [rand.choice([532, 532, 533, 600, 1064, 1065, 2000]) for _ in range(channels)]

def strings(words):
    return "[" + ", ".join('"%s"' % word for word in words) + "]"

print("channels = %d\nimage_len = %d\nring = \"bytes\"" % (channels, image_len))
print("caps = [" + ", ".join(map(str, caps)) + "]")
print("drain = " + rand.choice(["true", "true", "false"]))
print("setup = " + strings(setup))
print("steps = " + strings(steps))
PYTHON
}

alike=0
other=0
drops=0
for name in $(seq "$seed" $((seed + count - 1))); do
    make_run "$name" > "$room/$name.toml"
    one=0
    two=0
    "$program" "$room/$name.toml" > "$room/one" 2> "$room/one.err" || one=$?
    "$room/run" "$room/$name.toml" > "$room/two" 2> "$room/two.err" || two=$?
    if [ "$one" -eq "$two" ] && cmp -s "$room/one" "$room/two"; then
        alike=$((alike + 1))
        if grep -q 'dropped [1-9]' "$room/one"; then drops=$((drops + 1)); fi
        rm "$room/$name.toml"
    else
        other=$((other + 1))
        echo "differs: $room/$name.toml"
    fi
done
echo "$alike of $count runs alike, $drops of them with drops"
[ "$other" -eq 0 ] && rm -rf "$room"
