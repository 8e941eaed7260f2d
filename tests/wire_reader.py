#!/usr/bin/env python3
"""Reads captures of XCP on Ethernet, and prints the samples that DAQ packets carry: a reader of its own, beside those in Rattle, written
from what ASAM MCD-1 XCP and the formats of captures say.

    tests/wire_reader.py [--port N] [--told CODE:REPLY ..] [--times] FILE      prints a line for each sample
    tests/wire_reader.py [--port N] [--told CODE:REPLY ..] --summary FILE      counts them

A line is: the number of the list, its mark (1 the overload bit, 2 a gap before it, 3 both, else 0), the slave's ticks or -, and for each
entry address extension:address:bytes, the latter two in hexadecimal. With --times two times of the capture stand in front, in
nanoseconds, or - where it has none: those of the captured packets in which the last byte of the sample's first packet, and of its last
one, first came, or with which its fragments were all there.

FILE is of libpcap or pcapng. Who sends to port N (5555) is a master. What it sets up is learned from commands and their replies. With
--told slaves are as if they had replied that, in hexadecimal, to the command of this code before the capture began."""

import argparse
import collections
import struct
import sys

# ---- captures: each packet as (time in nanoseconds or None, link type, bytes)

# what a file of libpcap begins with: the order of its bytes, and the parts of a second
MARKS = {b"\xd4\xc3\xb2\xa1": ("<", 10**6), b"\xa1\xb2\xc3\xd4": (">", 10**6),
         b"\x4d\x3c\xb2\xa1": ("<", 10**9), b"\xa1\xb2\x3c\x4d": (">", 10**9)}


def pcap_packets(data):
    order, per_second = MARKS[data[:4]]
    link, at = struct.unpack_from(order + "I", data, 20)[0] & 0xFFFF, 24
    while at + 16 <= len(data):
        seconds, part, captured, _ = struct.unpack_from(order + "4I", data, at)
        if at + 16 + captured > len(data):
            return
        yield seconds * 10**9 + part * (10**9 // per_second), link, data[at + 16:at + 16 + captured]
        at += 16 + captured


def options_of(order, data):
    at = 0
    while at + 4 <= len(data):
        code, size = struct.unpack_from(order + "HH", data, at)
        yield code, data[at + 4:at + 4 + size]
        at += 4 + (size + 3) // 4 * 4


def interface_of(order, body):
    """(link type, longest packet, ticks a second, nanoseconds to add)"""
    link, _, longest = struct.unpack_from(order + "HHI", body)
    ticks, offset = 10**6, 0
    for code, value in options_of(order, body[8:]):
        if code == 0:
            break
        if code == 9:
            ticks = 2**(value[0] & 0x7F) if value[0] & 0x80 else 10**value[0]
        if code == 14:
            offset = struct.unpack(order + "q", value)[0] * 10**9
    return link, longest, ticks, offset


def pcapng_packets(data):
    at, order, interfaces = 0, "<", []
    while at + 12 <= len(data):
        if data[at:at + 4] == b"\n\r\r\n":
            order, interfaces = "<" if data[at + 8:at + 12] == b"\x4d\x3c\x2b\x1a" else ">", []
        kind, size = struct.unpack_from(order + "II", data, at)
        if size < 12 or at + size > len(data):
            return
        body = data[at + 8:at + size - 4]
        if kind == 1:
            interfaces.append(interface_of(order, body))
        elif kind == 6:
            which, high, low, captured, _ = struct.unpack_from(order + "5I", body)
            link, _, ticks, offset = interfaces[which]
            yield (high << 32 | low) * 10**9 // ticks + offset, link, body[20:20 + captured]
        elif kind == 3:
            link, longest, _, _ = interfaces[0]
            captured = min(struct.unpack_from(order + "I", body)[0], longest or 2**32)
            yield None, link, body[4:4 + captured]
        at += size


def packets_of(data):
    """Up to where the file breaks off, or has what can't be; nothing where it is no capture."""
    if data[:4] == b"\n\r\r\n" and data[8:12] in (b"\x4d\x3c\x2b\x1a", b"\x1a\x2b\x3c\x4d"):
        return undamaged(pcapng_packets(data))
    return pcap_packets(data) if data[:4] in MARKS and len(data) >= 24 else None


def undamaged(packets):
    try:
        yield from packets
    except (struct.error, IndexError):
        return


# ---- what packets carry: network numbers have the most significant byte first


def two(data, at):
    return int.from_bytes(data[at:at + 2], "big")


def four(data, at):
    return int.from_bytes(data[at:at + 4], "big")


def ip_of(link, data):
    """The IP packet in a captured one, or nothing."""
    if link in (101, 12, 14, 228, 229):
        return data
    if link in (0, 108):
        # a family of addresses, in either order of bytes
        families = [int.from_bytes(data[:4], order) for order in ("big", "little")]
        return data[4:] if any(it in (2, 10, 24, 28, 30) for it in families) else b""
    at, behind = {1: (12, 14), 113: (14, 16), 276: (0, 20)}.get(link, (0, 0))
    if not behind:
        return b""
    kind = two(data, at)
    while kind in (0x8100, 0x88A8, 0x9100):
        kind = two(data, behind + 2)
        behind += 4
    return data[behind:] if kind in (0x0800, 0x86DD) else b""


class Fragments:
    """IP packets that come in fragments. Of each byte the first one that came counts."""

    def __init__(self):
        self.parts = {}

    def put(self, key, at, data, more):
        """The whole, once it is there."""
        have, there, ends = self.parts.setdefault(key, (bytearray(), bytearray(), []))
        for it in (have, there):
            it.extend(bytes(max(at + len(data) - len(it), 0)))
        for i, byte in enumerate(data, at):
            if not there[i]:
                have[i], there[i] = byte, 1
        ends += [] if more else [at + len(data)]
        if not ends or len(there) < ends[0] or 0 in there[:ends[0]]:
            return None
        del self.parts[key]
        return bytes(have[:ends[0]])


def ipv4_payload(fragments, data):
    """(from, to, protocol, bytes), or nothing"""
    head, length, fragment = (data[0] & 15) * 4, two(data, 2) or len(data), two(data, 6)
    if len(data) < 20 or head < 20 or length < head:
        return None
    ends, payload = (data[12:16], data[16:20]), data[head:length]
    if fragment & 0x3FFF:
        payload = fragments.put((ends, data[9], two(data, 4)), (fragment & 0x1FFF) * 8, payload, bool(fragment & 0x2000))
    return None if payload is None else (*ends, data[9], payload)


def ipv6_payload(fragments, data):
    if len(data) < 40:
        return None
    ends, kind = (data[8:24], data[24:40]), data[6]
    payload = data[40:40 + (two(data, 4) or len(data))]
    # hop by hop, routing, fragment, authentication, destination
    while kind in (0, 43, 44, 51, 60):
        if len(payload) < 8:
            return None
        following, size = payload[0], 8 if kind == 44 else (payload[1] + 2) * 4 if kind == 51 else (payload[1] + 1) * 8
        place, key = two(payload, 2), (ends, following, payload[4:8])
        payload = payload[size:]
        if kind == 44 and place & 0xFFF9:
            payload = fragments.put(key, place & 0xFFF8, payload, bool(place & 1))
            if payload is None:
                return None
        kind = following
    return *ends, kind, payload


# ---- frames of XCP on Ethernet: LEN, CTR, and the packet


def frame_at(data, at):
    """(LEN, CTR, where it ends) of a frame of which the header is there, or nothing"""
    if at + 4 > len(data):
        return None
    length, counter = struct.unpack_from("<HH", data, at)
    return length, counter, at + 4 + length


def frames_of_datagram(data):
    at = 0
    while frame := frame_at(data, at):
        length, counter, end = frame
        if length == 0 or end > len(data):
            return
        yield counter, data[at + 4:end]
        at = end


def has_four_frames(data, at):
    before = None
    for _ in range(4):
        frame = frame_at(data, at)
        if not frame or frame[0] == 0 or frame[2] > len(data) or before not in (None, (frame[1] - 1) & 0xFFFF):
            return False
        _, before, at = frame
    return True


class Stream:
    """One direction of a connection by TCP. Segments are read once, in order; one that comes too soon waits. What is missing is a hole once
    the other end acknowledged it, or all ends. Behind a hole, and where the capture begins in the connection, it goes on at the first byte
    from which four frames follow."""

    def __init__(self, first=None):
        self.begun = first           # the number of its SYN, if that was captured
        self.next = None if first is None else (first + 1) & 0xFFFFFFFF
        self.place = 0               # how far the next byte is behind the first one
        self.in_step = first is not None
        self.bytes = bytearray()     # those before the next one that are no whole frame yet
        self.waiting = []            # (number, bytes)
        self.came = []               # (place of its first byte, of the byte behind it, time) of each segment

    def ahead(self, number):
        """How far beyond the next byte the one with this number is; below 0 if it comes before it."""
        return (number - self.next + 2**31) % 2**32 - 2**31

    def go_to(self, number):
        self.place += self.ahead(number)
        self.next = number & 0xFFFFFFFF

    def segment(self, time, number, data):
        """Frames that are whole now, each as (time, counter, packet)."""
        if self.next is None:
            self.next = number
        start = self.place + self.ahead(number)
        self.came.append((start, start + len(data), time))
        self.waiting.append((number, data))
        yield from self.take_waiting()

    def acknowledged(self, number):
        """The other end has all before this number: what is missing of it won't come any more."""
        if self.waiting and self.ahead(number) > 0:
            yield from self.pass_hole()

    def ended(self):
        while self.waiting:
            yield from self.pass_hole()

    def pass_hole(self):
        self.go_to(min((number for number, _ in self.waiting), key=self.ahead))
        self.bytes.clear()
        self.in_step = False
        yield from self.take_waiting()

    def take_waiting(self):
        fits = True
        while fits:
            fits = next((it for it in self.waiting if self.ahead(it[0]) <= 0), None)
            if fits:
                number, data = fits
                self.bytes += data[-self.ahead(number):]
                self.go_to(max(number + len(data), self.next, key=self.ahead))
                self.waiting.remove(fits)
        return self.frames()

    def frames(self):
        while self.in_step or self.finds_frames():
            frame = frame_at(self.bytes, 0)
            if not frame or frame[2] > len(self.bytes):
                return
            length, counter, end = frame
            if length == 0:
                self.in_step = False
                continue
            last = self.place - len(self.bytes) + end - 1
            time = next(time for start, behind, time in self.came if start <= last < behind)
            packet = bytes(self.bytes[4:end])
            del self.bytes[:end]
            self.came = [it for it in self.came if it[1] > last]
            yield time, counter, packet

    def finds_frames(self):
        start = next((at for at in range(len(self.bytes)) if has_four_frames(self.bytes, at)), None)
        if start is not None:
            del self.bytes[:start]
            self.in_step = True
        return self.in_step


# ---- a session: what a master set up, and what the slave sent

TIMESTAMP, UNREAD_MODES = 0x10, 0x02 | 0x08 | 0x20   # the latter: STIM, DTO_CTR, PID_OFF
UNKNOWN = "unknown"                                  # an entry of which nothing is known


class List:
    def __init__(self):
        # of each ODT its entries, if these are known: (address extension, address, bytes), UNKNOWN, or nothing where none was written
        self.odts = self.mode = self.first_pid = None
        self.gap = False             # whether its next sample has a gap before it
        self.part = None             # a sample that isn't whole yet: [time, ticks, overload, next ODT, values]
        self.passes = False          # whether the rest of a sample is passed over


class Session:
    """One master and one slave. A command is out until a reply or another command comes. It counts where its reply is positive; without
    a reply nobody knows what it did, nor where ERR_CMD_SYNCH comes, which answers SYNCH alone. A reply with no command out is one to a
    command that the capture lacks, which may have been any: nothing is known of any list any longer. So it is where CTR of the master
    doesn't rise by one, though it did at its last frame; but CONNECT may count anew. UPLOAD may have several replies, until all its
    bytes came. A frame of a master that counts which is just its last one is a copy. CTR of the slave counts all its frames: behind a
    jump each list that is set up has its next sample marked; a frame from below is passed over. CONNECT's reply counts anew."""

    def __init__(self, counts, told=()):
        self.counts = counts
        self.last = self.last_of_master = self.command = self.pointer = None
        self.master_counts, self.upload = False, 0      # whether CTR rose by one at its last frame; bytes of UPLOAD that are to come
        self.connected, self.order, self.granularity, self.id, self.overload = False, "little", 1, None, False
        self.stamp_bytes, self.stamp_fixed = None, False
        self.lists = collections.defaultdict(List)
        for code, reply in told:
            self.carry_out(bytes([code]) + bytes(8), reply + bytes(8))

    def number(self, data, at, size):
        return int.from_bytes(data[at:at + size], self.order)

    # commands, and what they do where their reply is positive, where it isn't, and where there is none

    def from_master(self, counter, packet):
        last, counted = self.last_of_master, self.master_counts
        if counted and last == (counter, packet):
            return
        follows = last is not None and (last[0] + 1) & 0xFFFF == counter
        self.last_of_master, self.master_counts = (counter, packet), follows
        if counted and not follows and packet[0] != 0xFF:
            self.lose_everything()
            self.command = None
        if packet[0] >= 0xC0:
            if self.command is not None:
                self.leave_unknown(self.command + bytes(8))
            self.command, self.upload = packet, 0

    def replied(self, reply):
        command, self.command = self.command, None
        positive, synched, awaited = reply[0] == 0xFF, reply[:2] == b"\xfe\x00", self.upload
        if command is not None:
            awaited = command[1] if command[0] == 0xF5 and len(command) > 1 else 0
        # a byte that is missing counts as 0
        if command is None:
            if not synched and not awaited:
                self.lose_everything()
        elif positive:
            self.carry_out(command + bytes(8), reply + bytes(8))
        elif synched or command[0] in (0xE2, 0xC7):
            # the pointer may have moved, and entries may have been written
            self.leave_unknown(command + bytes(8))
        self.upload = max(awaited - len(reply) + 1, 0) if positive else 0

    def carry_out(self, command, reply):
        code, number = command[0], self.number(command, 2, 2)
        if code == 0xFF:     # CONNECT
            self.connected, self.order, self.granularity = True, "big" if reply[2] & 1 else "little", 1 << (reply[2] >> 1 & 3)
        elif code == 0xDA:   # GET_DAQ_PROCESSOR_INFO
            self.overload, self.id = reply[1] >> 6 == 1, reply[7] >> 6
        elif code == 0xD9:   # GET_DAQ_RESOLUTION_INFO
            self.stamp_bytes, self.stamp_fixed = reply[5] & 7, bool(reply[5] & 8)
        elif code in (0xD6, 0xD5):   # FREE_DAQ, ALLOC_DAQ
            self.pointer = None
            self.lists.clear()
        elif code == 0xD4:   # ALLOC_ODT
            it = self.lists[number]
            it.odts, it.part, self.pointer = [[] for _ in range(command[4])], None, None
        elif code == 0xD3:   # ALLOC_ODT_ENTRY
            odts = self.lists[number].odts
            if odts is not None and command[4] < len(odts):
                odts[command[4]] = [None] * command[5]
            self.pointer = None
        elif code == 0xE2:   # SET_DAQ_PTR
            self.pointer = number, command[4], command[5]
        elif code == 0xE1:   # WRITE_DAQ
            self.write((command[3], self.number(command, 4, 4), command[2] * self.granularity))
        elif code == 0xC7:   # WRITE_DAQ_MULTIPLE
            for at in range(2, min(2 + 8 * command[1], len(command) - 7), 8):
                self.write((command[at + 6], self.number(command, at + 2, 4), command[at + 1] * self.granularity))
        elif code == 0xE0:   # SET_DAQ_LIST_MODE
            self.lists[number].mode = command[1]
        elif code == 0xE3:   # CLEAR_DAQ_LIST
            it = self.lists[number]
            it.odts = it.odts and [odt and [None] * len(odt) for odt in it.odts]
            it.mode = it.part = self.pointer = None
        elif code == 0xDE:   # START_STOP_DAQ_LIST
            self.lists[number].first_pid = reply[1]

    def leave_unknown(self, command):
        code, number = command[0], self.number(command, 2, 2)
        if code in (0xD6, 0xD5):
            self.lose_everything()
        elif code in (0xD4, 0xD3):
            self.lists[number].odts = None
        elif code == 0xE3:
            self.lists[number].odts = self.lists[number].mode = None
        elif code in (0xE1, 0xC7) and self.pointer is not None:
            # which of its ODT's entries come next is unknown too
            number, odt, entry = self.pointer
            many = 1 if code == 0xE1 else command[1]
            self.set_entries(number, odt, entry, [UNKNOWN] * (256 if entry is None else many))
            self.pointer = number, odt, None
        elif code in (0xE1, 0xC7):
            self.lose_all()
        elif code == 0xE2:
            self.pointer = None
        elif code == 0xE0:
            self.lists[number].mode = None

    def lose_everything(self):
        """Nothing is known of any list, and where the next entry is written."""
        self.lists.clear()
        self.pointer = None
        self.upload = 0

    def lose_all(self):
        for it in self.lists.values():
            it.odts = None

    def set_entries(self, number, odt, begin, entries):
        odts = self.lists[number].odts
        if odts is not None and odt < len(odts) and odts[odt] is not None:
            begin = begin or 0
            entries = entries[:max(len(odts[odt]) - begin, 0)]
            odts[odt][begin:begin + len(entries)] = entries

    def write(self, entry):
        """The entry at the pointer, which moves to the next one of its ODT. Without a pointer it may be any."""
        if self.pointer is None:
            self.lose_all()
            return
        number, odt, at = self.pointer
        if at is None:
            self.set_entries(number, odt, 0, [UNKNOWN] * 256)
            return
        self.set_entries(number, odt, at, [entry])
        self.pointer = number, odt, at + 1

    # what the slave sends

    def is_set_up(self, it):
        """Whether all is known of a list that its packets need to be read: the slave's form, each entry, the mode, FIRST_PID."""
        return (self.connected and self.id is not None and it.mode is not None and not it.mode & UNREAD_MODES
                and bool(it.odts) and all(odt and None not in odt and UNKNOWN not in odt for odt in it.odts)
                and not (it.mode & TIMESTAMP and self.stamp_bytes is None) and (self.id != 0 or it.first_pid is not None))

    def from_slave(self, time, counter, packet):
        """A sample that is whole now, if any: (times, ticks or None, list, mark, [(address extension, address, bytes)])."""
        connects = self.command is not None and self.command[0] == 0xFF and packet[0] == 0xFF and len(packet) >= 8
        if connects:
            self.last = None
            self.leave_out_parts()
        if self.last is not None:
            step = (counter - self.last) & 0xFFFF
            if step == 0 or step >= 0x8000:
                self.counts["late"] += 1
                return None
            if step > 1:
                self.jump()
        self.last = counter
        if packet[0] >= 0xFE:
            self.replied(packet)
        elif packet[0] < 0xFC:
            return self.daq_packet(time, packet)
        return None

    def leave_out(self, number, it):
        self.counts["left out", number] += 1
        it.part, it.passes = None, True

    def leave_out_parts(self):
        for number, it in self.lists.items():
            if it.part is not None:
                self.leave_out(number, it)

    def jump(self):
        self.counts["gaps"] += 1
        self.leave_out_parts()
        for it in self.lists.values():
            it.gap |= self.is_set_up(it)

    def place_of(self, packet):
        """(list, ODT, bytes of the identification field); list is None if there is no such one"""
        pid = packet[0] & 0x7F if self.overload else packet[0]
        if self.id == 0:
            for number, it in self.lists.items():
                if it.odts and it.first_pid is not None and it.first_pid <= pid < it.first_pid + len(it.odts):
                    return number, pid - it.first_pid, 1
            return None, 0, 1
        at, size = {1: (1, 1), 2: (1, 2), 3: (2, 2)}[self.id]
        number = self.number(packet, at, size)
        fits = len(packet) >= at + size and number in self.lists and pid < len(self.lists[number].odts or [])
        return number if fits else None, pid, at + size

    def daq_packet(self, time, packet):
        number, odt, at = (None, 0, 0) if self.id is None else self.place_of(packet)
        if number is None or not self.is_set_up(self.lists[number]):
            self.counts["of no list"] += 1
            return None
        it = self.lists[number]
        if odt == 0:
            if it.part is not None:
                self.leave_out(number, it)
            ticks = None
            if self.stamp_bytes and (self.stamp_fixed or it.mode & TIMESTAMP):
                ticks = self.number(packet, at, self.stamp_bytes)
                at += self.stamp_bytes
            it.part, it.passes = [time, ticks, False, 0, []], False
        elif it.part is None or it.part[3] != odt:
            if not it.passes:
                self.leave_out(number, it)
            return None
        for extension, address, size in it.odts[odt]:
            it.part[4].append((extension, address, packet[at:at + size]))
            at += size
        it.part[2] |= bool(self.overload and packet[0] & 0x80)
        it.part[3] += 1
        if at > len(packet):
            self.leave_out(number, it)
        elif it.part[3] == len(it.odts):
            begun, ticks, overload, _, values = it.part
            mark = overload | it.gap << 1
            it.part, it.gap = None, False
            self.counts["samples", number] += 1
            return (begun, time), ticks, number, mark, values
        return None


# ---- the whole


class Reader:
    def __init__(self, port, told):
        self.port, self.told, self.fragments = port, told, Fragments()
        self.sessions, self.streams = {}, {}
        self.counts = collections.Counter()

    def samples(self, packets):
        for time, link, data in packets:
            data = ip_of(link, data)
            if not data or data[0] >> 4 not in (4, 6):
                continue
            payload = (ipv4_payload if data[0] >> 4 == 4 else ipv6_payload)(self.fragments, data)
            if payload is None:
                continue
            source, target, protocol, data = payload
            if protocol in (6, 17) and len(data) >= (20 if protocol == 6 else 8):
                ends = (source, two(data, 0)), (target, two(data, 2))
                yield from self.segment(time, ends, data) if protocol == 6 else self.datagram(time, ends, data)
        for key, stream in self.streams.items():
            yield from self.frames(key, stream.ended())

    def key_of(self, protocol, ends):
        """(protocol, master, slave, whether the master sends), or nothing"""
        if ends[1][1] == self.port:
            return protocol, *ends, True
        return (protocol, ends[1], ends[0], False) if ends[0][1] == self.port else None

    def frames(self, key, frames):
        if key[:3] not in self.sessions:
            self.sessions[key[:3]] = Session(self.counts, self.told)
        session = self.sessions[key[:3]]
        for time, counter, packet in frames:
            if key[3]:
                session.from_master(counter, packet)
            elif sample := session.from_slave(time, counter, packet):
                yield sample

    def datagram(self, time, ends, data):
        if key := self.key_of("udp", ends):
            payload = data[8:two(data, 4) or len(data)]
            yield from self.frames(key, ((time, *frame) for frame in frames_of_datagram(payload)))

    def segment(self, time, ends, data):
        key = self.key_of("tcp", ends)
        if key is None:
            return
        other = (*key[:3], not key[3])
        number, flags, payload = four(data, 4), data[13], data[(data[12] >> 4) * 4:]
        if flags & 0x02:
            if key not in self.streams or self.streams[key].begun != number:
                yield from self.begin(key, other, number, bool(flags & 0x10))
            number += 1
        elif key not in self.streams:
            self.streams[key] = Stream()
        # what it acknowledges was there before it was sent
        if flags & 0x10 and other in self.streams and self.streams[other].next is not None:
            yield from self.frames(other, self.streams[other].acknowledged(four(data, 8)))
        if payload:
            yield from self.frames(key, self.streams[key].segment(time, number & 0xFFFFFFFF, payload))

    def begin(self, key, other, number, is_answer):
        """A connection begins: what was there of an earlier one ends."""
        for it in [key] if is_answer else [key, other]:
            if it in self.streams:
                yield from self.frames(it, self.streams.pop(it).ended())
        if not is_answer:
            self.sessions.pop(key[:3], None)
        self.streams[key] = Stream(number)


def line_of(sample, with_time):
    times, ticks, number, mark, values = sample
    words = ["-" if time is None else str(time) for time in times] if with_time else []
    words += [str(number), str(mark), "-" if ticks is None else str(ticks)]
    return " ".join(words + [f"{extension}:{address:08x}:{data.hex()}" for extension, address, data in values])


def main():
    words = argparse.ArgumentParser(description=__doc__, formatter_class=argparse.RawDescriptionHelpFormatter)
    words.add_argument("--port", type=int, default=5555)
    words.add_argument("--told", action="append", default=[])
    words.add_argument("--times", action="store_true")
    words.add_argument("--summary", action="store_true")
    words.add_argument("file")
    given = words.parse_args()
    told = [it.split(":") for it in given.told]
    reader = Reader(given.port, [(int(code, 16), bytes.fromhex(reply)) for code, reply in told])
    with open(given.file, "rb") as file:
        packets = packets_of(file.read())
    if packets is None:
        sys.exit(f"{given.file}: no capture")
    for sample in reader.samples(packets):
        if not given.summary:
            print(line_of(sample, given.times))
    if given.summary:
        counts = reader.counts
        for number in sorted({key[1] for key in counts if isinstance(key, tuple)}):
            print(f"list {number} samples {counts['samples', number]} left out {counts['left out', number]}")
        print(f"gaps {counts['gaps']} late {counts['late']} of no list {counts['of no list']}")


if __name__ == "__main__":
    main()
