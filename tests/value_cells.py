#!/usr/bin/env python3
"""Compares what ./xcpread --a2l A2L --csv prints of a capture, on standard input, with the rows that tests/captured_rows.py --lists made of
what tests/wire_reader.py read of it: the times since the first row, lists, marks and values. Texts of the A2L file stand for their numbers.

    ./xcpread --a2l A2L --csv FILE | tests/value_cells.py A2L ROWS      prints what differs, and ends with status 1 if anything does"""

import csv
import sys
from decimal import Decimal

sys.dont_write_bytecode = True
from a2l_variables import variables_of  # noqa: E402

variables = variables_of(sys.argv[1])
rows = open(sys.argv[2], encoding="utf-8").read()
numbers = {text: Decimal(number) for it in variables for number, text in it.texts.items()}
names = [it.name for it in variables]


def number_of(cell):
    """The number of a cell, or nothing if it is empty."""
    return None if not cell else numbers[cell] if cell in numbers else Decimal(cell)


head, *shown = csv.reader(sys.stdin)
wanted = list(csv.reader(rows.splitlines()))
# a measurement that no list has isn't shown
there = [at for at in range(len(names)) if any(row[3 + at] for row in wanted)]
faults = []
if [it.split(" [")[0] for it in head] != ["time", "list", "overload", *(names[at] for at in there)] or head[0] != "time [s]":
    faults.append(f"the first row is {head}")
if len(shown) != len(wanted):
    faults.append(f"{len(shown)} rows, where {len(wanted)} are wanted")
begin = Decimal(wanted[0][0])
for at, (row, (seconds, number, mark, *cells)) in enumerate(zip(shown, wanted)):
    values = [mark, *(cells[it] for it in there)]
    numbered = [Decimal(seconds) - begin, Decimal(number), *map(number_of, values)]
    if [number_of(it) for it in row] != numbered:
        faults.append(f"row {at}: {row} where {numbered} is wanted")
print("\n".join(faults[:10]), end="\n" if faults else "")
sys.exit(1 if faults else 0)
