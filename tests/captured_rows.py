#!/usr/bin/env python3
"""Prints the rows that examples/c/xcp_master.c prints, of the samples that tests/wire_reader.py read of its capture, by the A2L file.

    tests/wire_reader.py FILE | tests/captured_rows.py A2L              without the first row, which has the names
    tests/wire_reader.py FILE | tests/captured_rows.py A2L --lists      of any master: the number of the list in the place of its event"""

import sys

sys.dont_write_bytecode = True
from a2l_variables import variables_of  # noqa: E402

variables = variables_of(sys.argv[1])
places = {(it.extension, it.address): at for at, it in enumerate(variables)}

for line in sys.stdin:
    number, mark, ticks, *entries = line.split()
    cells = [""] * len(variables)
    for entry in entries:
        extension, address, data = entry.split(":")
        at = places[int(extension), int(address, 16)]
        assert len(data) == 2 * variables[at].size
        cells[at] = variables[at].cell(bytes.fromhex(data))
    event = number if "--lists" in sys.argv else ("1 ms", "10 ms")[int(number)]
    print(",".join([f"{int(ticks) / 1e6:.6f}", event, mark, *cells]))
