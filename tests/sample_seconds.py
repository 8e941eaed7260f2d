#!/usr/bin/env python3
"""Prints the times of samples as docs/RECORDINGS.md defines them ("Captures", "Time"), in seconds: a line for each.

    tests/wire_reader.py --times FILE | tests/sample_seconds.py BYTES      of a slave whose timestamps have so many bytes, of 1 us a tick

It looks at each time that the ticks may stand for, in place of reckoning."""

import decimal
import sys

MICROSECOND = 1000   # nanoseconds


def slave_times(samples, wrap):
    """Of each sample the ticks since the first one that is stamped, or none."""
    last = first = None
    for captured, ticks in samples:
        if ticks is None:
            yield None
            continue
        if last is None:
            first = now = ticks
        elif wrap * MICROSECOND > 200_000_000 and None not in (captured, last[1]):
            told = last[0] * MICROSECOND + max(captured - last[1], 0)
            near = told // MICROSECOND
            every = (it for it in range(near // wrap * wrap - 2 * wrap + ticks, near + 2 * wrap, wrap))
            now = min(every, key=lambda it: abs(it * MICROSECOND - told))
        else:
            now = next(it for it in range(last[0], last[0] + wrap) if it % wrap == ticks)
        last = now, captured
        yield now - first


def seconds(number, exponent):
    return f"{decimal.Decimal(number).scaleb(exponent).normalize():f}"


def main():
    samples = []
    for line in sys.stdin:
        _, captured, _, _, ticks, *_ = line.split()
        samples.append((None if captured == "-" else int(captured), None if ticks == "-" else int(ticks)))
    first = next((captured for captured, ticks in samples if ticks is None and captured is not None), None)
    for (captured, ticks), at in zip(samples, slave_times(samples, 256 ** int(sys.argv[1]))):
        if ticks is not None:
            print(seconds(at, -6))
        else:
            print("" if captured is None else seconds(captured - first, -9))


if __name__ == "__main__":
    main()
