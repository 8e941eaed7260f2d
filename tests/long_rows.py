#!/usr/bin/env python3
"""Looks at the rows that examples/c/xcp_master.c printed of examples/c/xcp_server.c with examples/c/many_variables.h, as
tests/live_rows.py does of those with its own variables: each value is that of the turn which stands in its row, a mark stands just where
samples are missing, and what was polled is of a turn about then.

    tests/long_rows.py ROWS [TIMES]     how often it measured, else once; prints how many rows of each kind there were, and the marks"""

import sys

sys.dont_write_bytecode = True
from live_rows import look_at_turns  # noqa: E402

SIGNALS, PACKETS, ROOM = 500, 10, 174
BOTH = 2**32 + 1                                  # a number in both halves


def packets(first, second):
    """What stands in the first packet and in each other one behind the wide ones."""
    for at in range(PACKETS):
        yield at, ROOM - (at == 0), first if at == 0 else second


def names():
    """In the order of the table."""
    yield from ["counter_0000", "stamp_0000", *(f"signal_{at:04}" for at in range(SIGNALS)), "slow_counter_0000", "slow_stamp_0000"]
    wide = 0
    for at, count, small in packets(("word", "byte"), ("long", "word", "byte")):
        yield from (f"wide_{it:04}" for it in range(wide, wide + count))
        wide += count
        yield from (f"{group}_{at - (group == 'long'):04}" for group in small)
    yield f"long_{PACKETS - 1:04}"


def fast_at(turn, stamp):
    return [str(turn), stamp, *(f"{it}.0" for it in range(turn, turn + SIGNALS))]


def slow_at(turn, stamp):
    cells, wide = [str(turn), stamp], turn
    for at, count, small in packets((2**16, 2**8), (2**32, 2**16, 2**8)):
        cells += (str(it * BOTH) for it in range(wide, wide + count))
        wide += count
        cells += (str((turn + at - (modulo == 2**32)) % modulo) for modulo in small)
    return cells


def look_at_samples(rows, begin, cells_at, width):
    """Gives the turn of each, and its mark: its values are those of the turn, from a column on, and beside them is nothing."""
    for row in rows:
        turn, stamp = row[begin:begin + 2]
        cells = cells_at(int(turn), stamp)
        assert row[3:] == [""] * (begin - 3) + cells + [""] * (width - begin - len(cells)), f"values of more than one turn: {row}"
        assert int(stamp) == round(float(row[0]) * 1e6), f"another time than its stamp: {row}"
        yield int(turn), row[2] == "1", row


def look_at_polled(polled, slow, begin):
    """Each value is of a turn from the sample before on until the one behind the next poll, as tests/live_rows.py says."""
    for row, following in zip(polled, polled[1:]):
        assert row[3:-1] == [""] * (len(row) - 4), f"more than was polled: {row}"
        before = [it for it in slow if float(it[0]) <= float(row[0])]
        behind = [it for it in slow if float(it[0]) > float(following[0])]
        if before and behind:
            turn = int(row[-1]) - (PACKETS - 1)
            assert int(before[-1][begin]) - 1 <= turn <= int(behind[0][begin]), f"a value of another time: {row[-1]}"


def main(path, times="1"):
    with open(path, encoding="ascii") as file:
        head, *rows = (line.rstrip("\n").split(",") for line in file)
    assert head == ["seconds", "event", "overload", *names()], "other columns"
    fast, slow, polled = ([row for row in rows if row[1] == event] for event in ("1 ms", "10 ms", "polled"))
    assert len(fast) + len(slow) + len(polled) == len(rows), "a row of another event"
    begin = head.index("slow_counter_0000")
    look_at_turns(look_at_samples(fast, 3, fast_at, len(head)), int(times))
    look_at_turns(look_at_samples(slow, begin, slow_at, len(head)), int(times))
    look_at_polled(polled, slow, begin)
    print(len(fast), len(slow), len(polled), sum(row[2] == "1" for row in rows))


if __name__ == "__main__":
    main(*sys.argv[1:])
