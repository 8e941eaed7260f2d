#!/usr/bin/env bash
# Proves and builds the program daq_bench and measures. It prints, for each set of DAQ lists, what one call or one sample takes
# in tenths of a nanosecond: the calls `fill`, `fill_into` and `trigger`; whole engines, over rings of items and of bytes, and in
# each form of packets; rings of frames; what finds nothing to do; tasks and slaves beside samplers and engines. With the word fill, engine,
# calls, bytes, frames, forms, empty or online it measures the one alone; with the word check none: it says of each set whether all that is
# measured works.
set -eu
cd "$(dirname "$0")"
program=$(./build.sh daq_bench)
if [ "${1:-}" = check ]; then
    "$program" | diff daq_bench/stdout -
    exit
fi
for what in ${1:-fill engine calls bytes frames forms empty online}; do
    "$program" "$what"
done
