#!/usr/bin/env python3
"""A master of examples/c/xcp_server.c as it was in version 0.3.0, over a plain socket, in whose session the slave refuses commands that
would change the DAQ lists if they counted, and sets lists up twice.

    tests/captures_kept/refusing_session.py udp|tcp PORT EXPECTED

Each command is wanted to be answered, or refused, just as docs/PROFILE.md says. What the master itself received is written to the file
EXPECTED, by its own knowledge of what it set up:

    refused ADDRESS      an address, in hexadecimal, that stands in commands alone that were refused
    SET-UP SAMPLE        the set-up, 1 or 2, and a sample, as tests/wire_reader.py prints it

By TCP it connects anew before the second set-up, as a tool does that is started once more, so what comes behind tells how packets look.
By UDP it doesn't: of a capture that begins in the first measurement only an A2L file tells it."""

import socket
import struct
import sys
import time

BASE = 0x10000000
COUNTER, TIME, SINE, SAW_TOOTH = (BASE, 4), (BASE + 4, 4), (BASE + 8, 2), (BASE + 10, 2)
SLOW_COUNTER, SLOW_TIME, TEMPERATURE, STATE = (BASE + 16, 4), (BASE + 20, 4), (BASE + 24, 2), (BASE + 26, 1)
BEFORE, BEHIND = (BASE - 1, 1), (BASE + 32, 4)   # of the image: no address of it
FAST_TASK, SLOW_TASK, NO_TASK = 0, 1, 2          # event channels

# of each list its event channel, its prescaler and the entries of its ODTs; SLOW_TIME is in none
FIRST = [(FAST_TASK, 2, [[COUNTER, TIME], [SINE, SAW_TOOTH]]), (SLOW_TASK, 1, [[SLOW_COUNTER, TEMPERATURE, STATE]])]
SECOND = [(SLOW_TASK, 1, [[STATE, SLOW_COUNTER]]), (FAST_TASK, 2, [[SAW_TOOTH, COUNTER], [TEMPERATURE]]),
          (FAST_TASK, 5, [[TIME, SINE]])]
FIRST_SAMPLES, SECOND_SAMPLES = 60, 40           # so many of a list, and then it is stopped

# error codes
DAQ_ACTIVE, OUT_OF_RANGE, MODE_NOT_VALID, SEQUENCE, MEMORY_OVERFLOW = 0x11, 0x22, 0x27, 0x29, 0x30


# ---- commands: their fields behind the code, as ASAM MCD-1 XCP, protocol layer, has them


def connect():
    return b"\xff\x00"


def alloc_daq(count):
    return struct.pack("<BxH", 0xD5, count)


def alloc_odt(number, count):
    return struct.pack("<BxHB", 0xD4, number, count)


def alloc_odt_entry(number, odt, count):
    return struct.pack("<BxHBB", 0xD3, number, odt, count)


def set_daq_ptr(number, odt, entry):
    return struct.pack("<BxHBB", 0xE2, number, odt, entry)


def write_daq(element, bit=0xFF, extension=0):
    address, size = element
    return struct.pack("<BBBBI", 0xE1, bit, size, extension, address)


def write_daq_multiple(*elements):
    return bytes([0xC7, len(elements)]) + b"".join(struct.pack("<BBIBx", 0xFF, size, address, 0) for address, size in elements)


def set_daq_list_mode(number, channel, prescaler, mode=0x10):
    return struct.pack("<BBHHBB", 0xE0, mode, number, channel, prescaler, 0)


def start_stop_daq_list(mode, number):
    return struct.pack("<BBH", 0xDE, mode, number)


def start_stop_synch(mode):
    return bytes([0xDD, mode])


def addresses_of(command):
    """Those that a command names as entries."""
    if command[0] == 0xE1:
        return {struct.unpack_from("<I", command, 4)[0]}
    return {struct.unpack_from("<I", command, at + 2)[0] for at in range(2, len(command), 8)} if command[0] == 0xC7 else set()


# ---- the session


class Master:
    """Frames out, packets in. What came of samples is kept as lines."""

    def __init__(self, kind, port):
        self.socket = socket.socket(socket.AF_INET, socket.SOCK_DGRAM if kind == "udp" else socket.SOCK_STREAM)
        self.socket.connect(("127.0.0.1", port))
        self.socket.settimeout(5)
        self.by_tcp = kind == "tcp"
        self.bytes, self.sent, self.last = b"", 0, None
        self.lists, self.places, self.parts = [], {}, {}
        self.set_ups, self.samples = 0, {}
        self.lines, self.written, self.refused = [], set(), set()

    def packet(self):
        """The next one of the slave; its counters rise by one."""
        while len(self.bytes) < 4 or len(self.bytes) < 4 + struct.unpack_from("<H", self.bytes)[0]:
            got = self.socket.recv(65536)
            assert got, "the slave is there"
            self.bytes += got
        length, counter = struct.unpack_from("<HH", self.bytes)
        assert self.last is None or counter == (self.last + 1) % 65536, "no frame is missing"
        self.last = counter
        packet, self.bytes = self.bytes[4:4 + length], self.bytes[4 + length:]
        return packet

    def exchange(self, command):
        """Sends a command, and gives its reply; samples that come before that are kept."""
        self.socket.sendall(struct.pack("<HH", len(command), self.sent) + command)
        self.sent = (self.sent + 1) % 65536
        while (packet := self.packet())[0] < 0xFC:
            self.keep(packet)
        return packet

    def ask(self, command):
        """One that is carried out; gives its reply."""
        reply = self.exchange(command)
        assert reply[0] == 0xFF, f"{command.hex()}: {reply.hex()}"
        self.written |= addresses_of(command)
        return reply

    def fail(self, command, code):
        """One that is refused."""
        reply = self.exchange(command)
        assert reply == bytes([0xFE, code]), f"{command.hex()}: {reply.hex()}"
        self.refused |= addresses_of(command)

    def keep(self, packet):
        """A packet of a sample, whose packets come in a row for each list."""
        number, odt = self.places[packet[0] & 0x7F]
        if odt == 0:
            ticks, = struct.unpack_from("<I", packet, 1)
            self.parts[number] = [str(number), str(packet[0] >> 7), str(ticks)]
        at = 5 if odt == 0 else 1
        for address, size in self.lists[number][2][odt]:
            self.parts[number].append(f"0:{address:08x}:{packet[at:at + size].hex()}")
            at += size
        assert at == len(packet), "the packet is as long as its ODT"
        if odt + 1 == len(self.lists[number][2]):
            self.lines.append(" ".join([str(self.set_ups), *self.parts.pop(number)]))
            self.samples[number] = self.samples.get(number, 0) + 1

    def begin(self, lists):
        """The lists of the next set-up are known to the slave, and none of its packets is under way."""
        assert not self.parts, "no sample is under way"
        self.lists, self.places, self.samples = lists, {}, {}
        self.set_ups += 1

    def select(self, number):
        """Selects a list, whose reply tells its first PID."""
        first_pid = self.ask(start_stop_daq_list(2, number))[1]
        self.places.update({first_pid + odt: (number, odt) for odt in range(len(self.lists[number][2]))})

    def measure(self, number, many):
        while self.samples.get(number, 0) < many:
            if self.by_tcp and not self.bytes:
                time.sleep(0.02)         # so several segments are acknowledged by one, and the capture is small
            packet = self.packet()
            assert packet[0] < 0xFC, "a reply to nothing"
            self.keep(packet)


def ask_all(master):
    """The questions of a tool."""
    master.ask(b"\xfd")                                         # GET_STATUS
    master.ask(b"\xfb")                                         # GET_COMM_MODE_INFO
    master.ask(b"\xda")                                         # GET_DAQ_PROCESSOR_INFO
    master.ask(b"\xd9")                                         # GET_DAQ_RESOLUTION_INFO
    for channel in (FAST_TASK, SLOW_TASK):
        master.ask(struct.pack("<BxH", 0xD7, channel))          # GET_DAQ_EVENT_INFO
    master.fail(struct.pack("<BxH", 0xD7, NO_TASK), OUT_OF_RANGE)


def set_up_first(master):
    """With refused commands before each right one, and behind it."""
    master.begin(FIRST)
    master.ask(b"\xd6")
    master.fail(alloc_daq(17), MEMORY_OVERFLOW)
    master.ask(alloc_daq(2))
    master.ask(alloc_odt(0, 2))
    master.fail(alloc_odt(1, 9), MEMORY_OVERFLOW)
    master.ask(alloc_odt(1, 1))
    master.fail(alloc_daq(1), SEQUENCE)
    master.fail(alloc_odt(2, 1), OUT_OF_RANGE)
    master.fail(alloc_odt_entry(0, 0, 33), MEMORY_OVERFLOW)
    master.ask(alloc_odt_entry(0, 0, 2))
    master.ask(alloc_odt_entry(0, 1, 2))
    master.ask(alloc_odt_entry(1, 0, 3))
    master.fail(alloc_odt_entry(0, 1, 200), MEMORY_OVERFLOW)
    master.fail(alloc_odt(0, 1), SEQUENCE)

    master.fail(set_daq_ptr(0, 0, 2), OUT_OF_RANGE)
    master.ask(set_daq_ptr(0, 0, 0))
    master.fail(write_daq(BEHIND), OUT_OF_RANGE)
    master.ask(write_daq(COUNTER))
    master.fail(write_daq(SLOW_TIME, bit=0), OUT_OF_RANGE)
    master.ask(write_daq(TIME))
    master.fail(write_daq(SLOW_TIME), SEQUENCE)
    # its first entry stands in the slave, until it is written anew
    master.ask(set_daq_ptr(0, 1, 0))
    master.fail(write_daq_multiple(SLOW_TIME, BEFORE), OUT_OF_RANGE)
    master.ask(set_daq_ptr(0, 1, 0))
    master.ask(write_daq(SINE))
    master.ask(write_daq(SAW_TOOTH))
    master.ask(set_daq_ptr(1, 0, 0))
    master.ask(write_daq_multiple(SLOW_COUNTER, TEMPERATURE, STATE))
    # over an entry that is written
    master.ask(set_daq_ptr(0, 0, 1))
    master.fail(write_daq(SLOW_TIME, extension=1), OUT_OF_RANGE)

    master.fail(set_daq_list_mode(0, NO_TASK, 1), OUT_OF_RANGE)
    master.ask(set_daq_list_mode(0, FAST_TASK, 2))
    master.fail(set_daq_list_mode(0, FAST_TASK, 0, mode=0), OUT_OF_RANGE)
    master.ask(set_daq_list_mode(1, SLOW_TASK, 1))
    master.fail(set_daq_list_mode(1, SLOW_TASK, 1, mode=0x30), MODE_NOT_VALID)
    master.select(0)
    master.fail(start_stop_daq_list(2, 2), OUT_OF_RANGE)
    master.select(1)


def measure_first(master):
    """While lists run nothing of them can be changed."""
    master.fail(start_stop_synch(4), MODE_NOT_VALID)
    master.ask(start_stop_synch(1))
    master.measure(0, FIRST_SAMPLES // 4)
    master.fail(alloc_daq(3), DAQ_ACTIVE)
    master.fail(alloc_odt_entry(0, 0, 1), DAQ_ACTIVE)
    master.fail(set_daq_list_mode(0, FAST_TASK, 2, mode=0), DAQ_ACTIVE)
    master.measure(0, FIRST_SAMPLES)
    master.ask(b"\xfd")
    master.ask(start_stop_synch(0))
    master.ask(b"\xfd")
    master.ask(b"\xdc")                                         # GET_DAQ_CLOCK


def set_up_second(master):
    master.begin(SECOND)
    master.ask(b"\xd6")
    master.ask(alloc_daq(3))
    for number, (_, _, odts) in enumerate(SECOND):
        master.ask(alloc_odt(number, len(odts)))
    for number, (_, _, odts) in enumerate(SECOND):
        for odt, entries in enumerate(odts):
            master.ask(alloc_odt_entry(number, odt, len(entries)))
    master.fail(alloc_odt_entry(2, 0, 255), MEMORY_OVERFLOW)
    # the last list first, and the last entry of one in front
    master.ask(set_daq_ptr(2, 0, 0))
    master.fail(write_daq(SLOW_TIME, bit=31), OUT_OF_RANGE)
    master.ask(write_daq(TIME))
    master.ask(write_daq(SINE))
    master.ask(set_daq_ptr(1, 0, 0))
    master.fail(write_daq_multiple(SLOW_TIME, BEHIND, COUNTER), OUT_OF_RANGE)
    master.ask(set_daq_ptr(1, 0, 1))
    master.ask(write_daq(COUNTER))
    master.ask(set_daq_ptr(1, 0, 0))
    master.ask(write_daq(SAW_TOOTH))
    master.fail(set_daq_ptr(1, 2, 0), OUT_OF_RANGE)
    master.ask(set_daq_ptr(1, 1, 0))
    master.ask(write_daq(TEMPERATURE))
    master.ask(set_daq_ptr(0, 0, 0))
    master.ask(write_daq_multiple(STATE, SLOW_COUNTER))
    for number, (channel, prescaler, _) in enumerate(SECOND):
        master.ask(set_daq_list_mode(number, channel, prescaler))
        master.fail(set_daq_list_mode(number, NO_TASK, prescaler, mode=0), OUT_OF_RANGE)
    for number in range(len(SECOND)):
        master.select(number)


def main(kind, port, path):
    master = Master(kind, int(port))
    master.ask(connect())
    ask_all(master)
    set_up_first(master)
    measure_first(master)
    if master.by_tcp:
        master.ask(connect())
        ask_all(master)
    set_up_second(master)
    master.ask(start_stop_synch(1))
    master.measure(1, SECOND_SAMPLES)
    master.ask(start_stop_synch(0))
    master.ask(b"\xfe")                                         # DISCONNECT
    master.socket.close()
    with open(path, "w", encoding="ascii") as file:
        file.writelines(f"refused {it:08x}\n" for it in sorted(master.refused - master.written))
        file.writelines(f"{it}\n" for it in master.lines)


if __name__ == "__main__":
    main(*sys.argv[1:])
