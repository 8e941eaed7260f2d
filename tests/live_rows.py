#!/usr/bin/env python3
"""Looks at the rows that examples/c/xcp_master.c printed of examples/c/xcp_server.c, with all variables: each value is the one of its
time, a mark stands just where samples are missing, and what was polled is what the task had about then.

    tests/live_rows.py ROWS [TIMES]     how often it measured, else once; prints how many rows of each kind there were, and the marks"""

import csv
import sys

sys.dont_write_bytecode = True
from live_values import STATES, is_of_one_trigger  # noqa: E402

COUNTERS = {"1 ms": "counter", "10 ms": "slow_counter"}


def values_of(row):
    """The cells of a row that have something, numbers as numbers."""
    cells = {name: cell for name, cell in row.items() if cell and name not in ("seconds", "event", "overload")}
    return {name: cell if name == "state" else float(cell) for name, cell in cells.items()}


def look_at_turns(rows, times):
    """Rows of one event channel, each with the turn of its task and its mark: gaps without a mark are between measurements alone; there is
    no mark without a gap."""
    last, unmarked = None, 0
    for turn, is_marked, row in rows:
        if last is not None:
            assert turn > last, f"the turn falls: {row}"
            is_gap = turn != last + 1
            assert is_gap or not is_marked, f"a mark without a gap: {row}"
            unmarked += is_gap and not is_marked
        last = turn
    assert unmarked < times, f"{unmarked} gaps without a mark, in {times} measurements"


def look_at_samples(rows, event):
    """Gives the turn of each, and its mark."""
    name = COUNTERS[event]
    stamp = name.replace("counter", "stamp")
    for row in rows:
        values = values_of(row)
        assert is_of_one_trigger(values), f"values of more than one trigger: {row}"
        assert values[stamp] == round(float(row["seconds"]) * 1e6), f"another time than its stamp: {row}"
        yield values[name], row["overload"] == "1", row


def look_at_polled(polled, slow):
    """Each state is one that the slow task had from the sample before on until the one behind the next poll. The time is that of the
    question before, and the newest trigger then may not have computed yet."""
    for row, following in zip(polled, polled[1:]):
        assert row["state"] in STATES and len(values_of(row)) == 1, f"no state was polled: {row}"
        before = [it for it in slow if float(it["seconds"]) <= float(row["seconds"])]
        behind = [it for it in slow if float(it["seconds"]) > float(following["seconds"])]
        if before and behind:
            turns = range(int(before[-1]["slow_counter"]) - 1, int(behind[0]["slow_counter"]) + 1)
            assert row["state"] in {STATES[turn // 25 % 4] for turn in turns}, f"a state of another time: {row}"


def main(path, times="1"):
    with open(path, newline="") as file:
        rows = list(csv.DictReader(file))
    kinds = {event: [row for row in rows if row["event"] == event] for event in (*COUNTERS, "polled")}
    assert sum(map(len, kinds.values())) == len(rows), "a row of another event"
    for event in COUNTERS:
        look_at_turns(look_at_samples(kinds[event], event), int(times))
    look_at_polled(kinds["polled"], kinds["10 ms"])
    print(*map(len, kinds.values()), sum(row["overload"] == "1" for row in rows))


if __name__ == "__main__":
    main(*sys.argv[1:])
