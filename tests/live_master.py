#!/usr/bin/env python3
"""A master of examples/c/xcp_server.c over a plain socket, beside examples/c/xcp_master.c, which knows the variables by the A2L file alone.

    tests/live_master.py udp|tcp PORT fetch             prints the A2L file that the slave has
    tests/live_master.py udp|tcp PORT poll SECONDS      reads whole sections without a list, as fast as it can, while all is measured
    tests/live_master.py udp|tcp PORT refused           wants what a task's list may not have to be refused
    tests/live_master.py udp|tcp PORT connects MANY     connects so often, and each time asks who is there

Ends with status 1, and says why, at the first thing that isn't as it should be."""

import struct
import sys
import tempfile

sys.dont_write_bytecode = True
from a2l_variables import variables_of  # noqa: E402
from captures_kept.refusing_session import (  # noqa: E402
    OUT_OF_RANGE, Master, alloc_daq, alloc_odt, alloc_odt_entry, connect, set_daq_list_mode, set_daq_ptr, start_stop_daq_list,
    start_stop_synch, write_daq)
from live_values import is_of_one_trigger  # noqa: E402

NOT_READY = 0x2A                                  # ERR_DAQ_CONFIG
DISCONNECT, FREE_DAQ, GET_DAQ_CLOCK = b"\xfe", b"\xd6", b"\xdc"


def want(holds, what):
    if not holds:
        sys.exit(f"live_master: {what}")


def short_upload(address, size):
    return struct.pack("<BBxBI", 0xF4, size, 0, address)


def text_of(master, kind):
    """That of GET_ID, which UPLOAD reads."""
    left, = struct.unpack_from("<I", master.ask(bytes([0xFA, kind])), 4)
    parts = []
    while left:
        parts.append(master.ask(bytes([0xF5, min(left, 63)]))[1:])
        left -= len(parts[-1])
    return b"".join(parts)


def variables_by(master):
    """Those of the A2L file, by name, and the text itself."""
    with tempfile.NamedTemporaryFile(suffix=".a2l") as file:
        file.write(text_of(master, 4))
        file.flush()
        return {it.name: it for it in variables_of(file.name)}


def set_up(master, lists):
    """Lists of one ODT, each of (event channel, variables), selected."""
    master.begin([(event, 1, [[(it.address, it.size) for it in entries]]) for event, entries in lists])
    master.ask(FREE_DAQ)
    master.ask(alloc_daq(len(lists)))
    for number in range(len(lists)):
        master.ask(alloc_odt(number, 1))
    for number, (_, entries) in enumerate(lists):
        master.ask(alloc_odt_entry(number, 0, len(entries)))
    for number, (event, entries) in enumerate(lists):
        master.ask(set_daq_ptr(number, 0, 0))
        for it in entries:
            master.ask(write_daq((it.address, it.size)))
        master.ask(set_daq_list_mode(number, event, 1))
        master.select(number)


def values_in(variables, start, data):
    """The values of variables in bytes that begin at an address."""
    cells = {it.name: it.cell(data[it.address - start:it.address - start + it.size]) for it in variables}
    return {name: cell if name == "state" else float(cell) for name, cell in cells.items()}


def samples_of(master, lists):
    """The values of the samples that were kept, list by list."""
    for line in master.lines:
        _, number, _, ticks, *entries = line.split()
        pairs = zip(lists[int(number)][1], entries)
        cells = {it.name: it.cell(bytes.fromhex(entry.split(":")[2])) for it, entry in pairs}
        yield int(number), int(ticks), {name: cell if name == "state" else float(cell) for name, cell in cells.items()}


def poll_once(master, variables, stamp):
    """Reads a whole section, whose values are of one trigger that was before the clock; gives its counter."""
    start = min(it.address for it in variables)
    data = master.ask(short_upload(start, max(it.address + it.size for it in variables) - start))[1:]
    values = values_in(variables, start, data)
    clock, = struct.unpack_from("<I", master.ask(GET_DAQ_CLOCK), 4)
    want(is_of_one_trigger(values), f"what was polled is of more than one trigger: {values}")
    want((clock - int(values[stamp])) % 2**32 < 2**31, "what was polled is of a trigger that is to come")
    return int(values[stamp.replace("stamp", "counter")])


def poll(master, seconds):
    by_name = variables_by(master)
    lists = [(event, [it for it in by_name.values() if it.event == event]) for event in (0, 1)]
    stamps, turns, polls = ("stamp", "slow_stamp"), [[], []], 0
    set_up(master, lists)
    master.ask(start_stop_synch(1))
    while master.samples.get(0, 0) < 1000 * float(seconds):
        for number, (_, variables) in enumerate(lists):
            before = len(master.lines)
            turns[number].append((before, poll_once(master, variables, stamps[number])))
            polls += 1
    master.ask(start_stop_synch(0))
    seen = [[], []]
    for at, (number, ticks, values) in enumerate(samples_of(master, lists)):
        want(is_of_one_trigger(values), f"a sample is of more than one trigger: {values}")
        want(values[stamps[number]] == ticks, "a sample has another stamp than its trigger")
        seen[number].append((at, int(values[stamps[number].replace("stamp", "counter")])))
    for number in (0, 1):
        look_at_turns(seen[number], turns[number])
    print(f"{len(master.lines)} samples, {polls} polls")


def look_at_turns(seen, turns):
    """What was polled isn't older than the samples that had come before the question."""
    at = 0
    for lines, turn in turns:
        while at < len(seen) and seen[at][0] < lines:
            at += 1
        want(at == 0 or turn >= seen[at - 1][1], f"polled is {turn}, where {seen[at - 1][1]} was measured before")


def refused(master):
    by_name = variables_by(master)
    fast, slow = ([it for it in by_name.values() if it.event == event] for event in (0, 1))
    for event, entries in ((0, slow), (1, fast), (0, fast[:1] + slow[:1])):
        set_up(master, [(event, entries)])
        master.fail(start_stop_synch(1), NOT_READY)
        master.fail(start_stop_daq_list(1, 0), NOT_READY)
    for variables in (fast, slow):
        start, end = min(it.address for it in variables), max(it.address + it.size for it in variables)
        master.fail(short_upload(start - 1, 1), OUT_OF_RANGE)
        master.fail(short_upload(end - 1, 2), OUT_OF_RANGE)
        master.ask(set_daq_ptr(0, 0, 0))
        master.fail(write_daq((end - 1, 2)), OUT_OF_RANGE)
        want(len(master.ask(short_upload(end - 1, 1))) == 2, "the last byte of a section can be read")


def main(kind, port, what, *words):
    if what == "connects":
        for _ in range(int(words[0])):
            master = Master(kind, int(port))
            master.ask(connect())
            want(master.ask(b"\xfa\x00")[8:] == b"xcp_server", "the name")
            master.ask(DISCONNECT)
            master.socket.close()
        return
    master = Master(kind, int(port))
    master.ask(connect())
    if what == "fetch":
        sys.stdout.buffer.write(text_of(master, 4))
    else:
        {"poll": poll, "refused": refused}[what](master, *words)
    master.ask(DISCONNECT)


if __name__ == "__main__":
    main(*sys.argv[1:])
