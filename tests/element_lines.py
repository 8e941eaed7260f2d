#!/usr/bin/env python3
"""Prints the rows of ./xcpread --csv, which stand on standard input, as tests/wire_reader.py prints samples: a line for each.

    ./xcpread --csv CAPTURE | tests/element_lines.py
    ./xcpread --csv CAPTURE | tests/element_lines.py --seconds                    the time of each alone
    ./xcpread --csv --clock capture CAPTURE | tests/element_lines.py --times      when each was captured alone, in nanoseconds, or -"""

import csv
import sys


def nanoseconds(seconds):
    """Of an exact decimal without zeros at its end."""
    if not seconds:
        return "-"
    whole, point, part = seconds.partition(".")
    assert len(part) <= 9 and (part.strip("0") == part.lstrip("0") != "" if point else whole.lstrip("-").isdigit())
    return int(whole + part.ljust(9, "0"))


def samples(text):
    """The rows of each sample, of the lines of a text."""
    rows, before = [], None
    for row in csv.DictReader(text):
        place = (row["list"], row["sample"])
        here = (int(row["odt"]), int(row["entry"]))
        if rows and (place != before[0] or here <= before[1]):
            yield rows
            rows = []
        rows.append(row)
        before = (place, here)
    if rows:
        yield rows


def line_of(rows):
    """The line of a sample."""
    words = [rows[0]["list"], rows[0]["overload"], rows[0]["ticks"] or "-"]
    return " ".join(words + [f"{row['extension']}:{int(row['address']):08x}:{row['hex']}" for row in rows])


def main():
    for rows in samples(sys.stdin):
        if "--seconds" in sys.argv:
            print(*{row["time [s]"] for row in rows})
            continue
        if "--times" in sys.argv:
            print(*{nanoseconds(row["capture [s]"]) for row in rows})
            continue
        print(line_of(rows))


if __name__ == "__main__":
    main()
