#!/usr/bin/env python3
"""Writes captures of masters and slaves of XCP on Ethernet that are made up, from ASAM MCD-1 XCP and the formats of captures alone, and
always the same ones.

    tests/make_captures.py FOLDER

Beside each NAME.pcap or NAME.pcapng stands NAME.expected: the lines of the samples that a right reader shows, in the form that
tests/wire_reader.py tells. They follow from what was sent: a sample is shown if no frame of the slave, from its first to its last one, was
lost or came late; it has a gap before it if that happened since the last one of its list that is shown. NAME.times has the time of each
in nanoseconds, and that of its last packet, NAME.counts how many samples and gaps there are, NAME.words what is said on the command line,
and NAME.stamp how many bytes timestamps of 1 us have."""

import copy
import itertools
import pathlib
import random
import struct
import sys

# ---- what is sent: forms of slaves, and their lists


class Form:
    """How a slave answers: its byte order, and what its GET_DAQ_* say."""

    def __init__(self, order, key, overload, stamp, fixed=False, granularity=1, fill=0, many=False, first=0):
        self.order, self.key, self.overload, self.stamp, self.fixed = order, key, overload, stamp, fixed
        self.granularity, self.fill = granularity, fill
        self.many = many              # whether its master sends WRITE_DAQ_MULTIPLE
        self.first = first            # so many lists are there without ALLOC_DAQ: MIN_DAQ

    def word(self, number):
        return struct.pack(self.order + "H", number)

    def field(self, pid, number):
        """The identification field: absolute, or relative with the list as byte, word or aligned word."""
        return [bytes([pid]), bytes([pid, number]), bytes([pid]) + self.word(number), bytes([pid, 0x5A]) + self.word(number)][self.key]


class List:
    def __init__(self, odts, stamped=True, first_pid=0, mode=0, every=1):
        self.odts, self.stamped, self.first_pid, self.mode, self.every = odts, stamped, first_pid, mode, every


STIM, DTO_CTR, STAMPED, PID_OFF = 0x02, 0x08, 0x10, 0x20
OVERLOAD_NONE, OVERLOAD_PID, OVERLOAD_EVENT = 0, 1, 2

# (address extension, address, bytes), of each ODT
FORMS = {
    "a": Form("<", 1, OVERLOAD_PID, 4),
    "b": Form(">", 3, OVERLOAD_NONE, 2, fixed=True, fill=3, many=True),
    "c": Form("<", 2, OVERLOAD_EVENT, 0),
    "d": Form(">", 0, OVERLOAD_PID, 1),
    "e": Form("<", 0, OVERLOAD_EVENT, 2, first=3),
}
LISTS = {
    "a": [List([[(0, 0x10000000, 4), (1, 0x20, 1)], [(0, 0x10000004, 7)], [(0, 0xFFFFFFFF, 1)]]),
          List([[(0, 0x10000010, 2)]], stamped=False, every=3),
          List([[(0, 0x10000020, 4)]], mode=DTO_CTR, every=2)],
    "b": [List([[(0, 0x4000, 2), (0, 0x4001, 4), (7, 0x4003, 2)], [(0, 0x4010, 8)]]),
          List([[(0, 0x5000, 6)], [(0, 0x5003, 2)]], every=2)],
    "c": [List([[(0, 0x8000 + 200 * i, 200) for i in range(6)] + [(0, 0x9000, 197)], [(0, 0xA000, 255)]]),
          List([[(0, 0xB000 + 250 * i, 250) for i in range(5)] + [(0, 0xC000, 147)]], every=2)],
    "d": [List([[(0, 0x100, 4)], [(0, 0x104, 4), (0, 0x108, 1)]], first_pid=0x60),
          List([[(0, 0x200, 8)], [(0, 0x208, 3)], [(0, 0x20B, 2)]], stamped=False, first_pid=0x07, every=2),
          List([[(0, 0x300, 4)]], mode=STIM, first_pid=0x50, every=9)],
    "e": [List([[(0, 0x1000, 4), (0, 0x1004, 2)], [(0, 0x1006, 3)]], first_pid=0xFA),
          List([[(0, 0x1010, 1)], [(0, 0x1011, 1)], [(9, 0x1012, 2)]], stamped=False, first_pid=0x7F, every=2)],
}
AGAIN = {
    "a": [List([[(0, 0x10000100, 3)], [(0, 0x10000104, 4)]], stamped=False), List([[(2, 0x10000110, 5)]], every=2)],
    "b": [List([[(0, 0x6000, 4)]])],
    "c": [List([[(0, 0xD000 + 240 * i, 240) for i in range(5)]])],
    "d": [List([[(0, 0x400, 2)], [(0, 0x402, 2)]], first_pid=0x03), List([[(0, 0x500, 1)]], first_pid=0x01, every=3)],
    "e": [List([[(0, 0x1020, 2)]], first_pid=0x80)],
}


class Frame:
    def __init__(self, packet):
        self.packet, self.counter = packet, 0
        self.kept = True              # whether it is in the capture, in its order
        self.time = None              # of the captured packet with which it came

    def bytes(self):
        return struct.pack("<HH", len(self.packet), self.counter) + self.packet


class Datagram:
    def __init__(self, from_master, frames, loose=0):
        self.from_master, self.frames = from_master, frames
        self.loose = loose            # the measurement of which it has samples, from 1: then it may be lost
        self.fate = "kept"
        self.connects = False         # whether a connection begins with it
        self.stray = False            # whether its CTR is from long ago
        self.tail = b""               # bytes behind its frames that are no frame

    def bytes(self):
        return b"".join(it.bytes() for it in self.frames) + self.tail


class Session:
    """What master and slave send, in order, and the samples in it."""

    def __init__(self, form, seed):
        self.form, self.random = form, random.Random(seed)
        self.datagrams, self.samples = [], []
        self.master_counter, self.slave_counter = 0xFFF0, 0xFFC0
        self.ticks, self.measurements = 0xFFFFFF00, 0

    def send(self, from_master, *packets, loose=0):
        frames = [Frame(it) for it in packets]
        for frame in frames:
            if from_master:
                frame.counter, self.master_counter = self.master_counter, (self.master_counter + 1) & 0xFFFF
            else:
                frame.counter, self.slave_counter = self.slave_counter, (self.slave_counter + 1) & 0xFFFF
        self.datagrams.append(Datagram(from_master, frames, loose))
        return frames

    def ask(self, command, reply=b"\xff"):
        self.send(True, command)
        self.send(False, reply)

    def lose(self, many):
        """So many frames of the slave are lost, which none of its lists has."""
        self.send(False, b"\xfd\x03")
        self.datagrams[-1].fate, self.datagrams[-1].frames[0].kept = "lost", False
        self.slave_counter = (self.slave_counter + many - 1) & 0xFFFF

    def stray(self):
        """A frame that differs from the last one by 32768, which is from below."""
        self.send(False, b"\xfd\x04")
        frame = self.datagrams[-1].frames[0]
        self.slave_counter, frame.counter = frame.counter, (frame.counter - 1 + 0x8000) & 0xFFFF
        self.datagrams[-1].stray = True

    def frames(self):
        """The slave's, in order."""
        return [frame for it in self.datagrams if not it.from_master and not it.stray for frame in it.frames]

    # the set-up

    def connect(self, counts_anew=False, trouble=False):
        form = self.form
        if counts_anew:
            self.slave_counter = 0
        if trouble:
            self.ask(b"\xff\x01", b"\xfe\x22")
            self.send(True, b"\xff\x00")
        mode = 0x80 | (form.order == ">") | {1: 0, 2: 2, 4: 4}[form.granularity]
        self.ask(b"\xff\x00", bytes([0xFF, 0x04, mode, 0xFF]) + form.word(1500) + b"\x01\x01")
        self.ask(b"\xfd", b"\xff\0\0\0" + form.word(0))
        for command in (0xDA, 0xD9):
            self.ask(bytes([command]), self.reply_to(command))

    def reply_to(self, command):
        """What the slave says to GET_DAQ_PROCESSOR_INFO, and to GET_DAQ_RESOLUTION_INFO."""
        form = self.form
        if command == 0xDA:
            return bytes([0xFF, 0x13 | form.overload << 6]) + form.word(0) + form.word(2) + bytes([form.first, form.key << 6 | 0x01])
        return bytes([0xFF, 1, 0xFF, 1, 0, form.stamp | form.fixed << 3 | 3 << 4]) + form.word(1)

    def entry(self, extension, address, size):
        size //= self.form.granularity
        return bytes([0xE1, 0xFF, size, extension]) + struct.pack(self.form.order + "I", address)

    def entries(self, entries):
        parts = [bytes([0xFF, size // self.form.granularity]) + struct.pack(self.form.order + "I", address) + bytes([extension, 0])
                 for extension, address, size in entries]
        return bytes([0xC7, len(entries)]) + b"".join(parts)

    def mode_of(self, it):
        return it.mode | (STAMPED if it.stamped and self.form.stamp and not self.form.fixed else 0)

    def set_up(self, lists, trouble=False, lost=False):
        """With trouble, commands are refused and sent again, or sent again since no reply came, and others come between."""
        word = self.form.word
        lists = list(enumerate(lists, self.form.first))
        self.ask(b"\xd6")
        if trouble:
            self.ask(b"\xd5\0" + word(9), b"\xfe\x30")
            self.send(True, b"\xd5\0" + word(len(lists)))
        self.ask(b"\xd5\0" + word(len(lists)))
        if lost:
            self.lose(3)              # before a list is set up
        for number, it in lists:
            self.ask(b"\xd4\0" + word(number) + bytes([len(it.odts)]))
        for number, it in lists:
            for k, odt in enumerate(it.odts):
                self.ask(b"\xd3\0" + word(number) + bytes([k, len(odt)]))
        if trouble:
            self.write_wrongly()
        for number, it in lists:
            for k, odt in enumerate(it.odts):
                self.write(number, k, odt, trouble)
            if trouble:
                self.ask(bytes([0xE0, 0x13 ^ self.mode_of(it)]) + word(number) + word(1) + b"\x01\0", b"\xfe\x27")
            self.ask(bytes([0xE0, self.mode_of(it)]) + word(number) + word(0) + b"\x01\0")
            if trouble:
                self.ask(b"\xde\x02" + word(number), b"\xfe\x29")
            self.send(True, b"\xde\x02" + word(number))
            if trouble:
                self.send(True, b"\x00\x01\x02")                 # STIM
                self.send(False, b"\xfd\x00\xff", b"\xfc\x01text")  # EV and SERV
            self.send(False, bytes([0xFF, it.first_pid]))
        self.ask(b"\xdd\x01")
        return len(self.frames())

    def write_wrongly(self):
        """An entry and a mode of the first list that are cleared again."""
        first = self.form.word(self.form.first)
        self.ask(b"\xe2\0" + first + b"\0\0")
        self.ask(self.entry(3, 0x77, 2 * self.form.granularity))
        self.ask(b"\xe0\x10" + first + self.form.word(1) + b"\x01\0")
        self.ask(b"\xe3\0" + first)

    def write(self, number, k, odt, trouble):
        pointer = b"\xe2\0" + self.form.word(number) + bytes([k, 0])
        if trouble:
            self.ask(b"\xe2\0" + self.form.word(number) + bytes([k, len(odt)]), b"\xfe\x22")
            self.send(True, pointer)         # no reply comes to it
            self.ask(b"\xfc", b"\xfe\x00")   # SYNCH
        if len(odt) > 1 and not trouble:
            # its last entry first
            self.ask(pointer[:-1] + bytes([len(odt) - 1]))
            self.ask(self.entry(*odt[-1]))
            odt = odt[:-1]
        self.ask(pointer)
        if self.form.many and len(odt) > 1:
            self.ask(self.entries(odt))
            return
        for extension, address, size in odt:
            if trouble:
                self.ask(self.entry(extension, address ^ 1, size), b"\xfe\x22")
            self.ask(self.entry(extension, address, size))

    # an entry of the first list that is written anew, of which packets may be missing in the capture

    def lack(self, *places):
        """The capture lacks these of the last datagrams."""
        for it in (self.datagrams[at] for at in places):
            it.fate = "lost"
            for frame in it.frames:
                frame.kept = False

    def write_anew(self, entry, missing):
        self.ask(b"\xe2\0" + self.form.word(self.form.first) + b"\0\0")
        if missing == "pointer":
            self.lack(-2)
        write = self.entry(*entry)
        if missing == "nothing, but more replies come":
            self.upload()
        if missing == "a command behind more replies":
            self.upload()
            self.ask(write)
            self.lack(-2)
        elif missing == "synch":
            self.send(True, write)           # no reply comes to it
            self.send(True, b"\xfc")
            self.lack(-1)
            self.send(False, b"\xfe\x00")
        elif missing == "nothing, but a reply is late":
            self.send(True, write)
            self.send(True, b"\xfc")
            self.send(False, b"\xff")
            self.send(False, b"\xfe\x00")
        elif missing == "nothing, but it is sent again":
            for from_master in (True, True, False, False):
                self.send(from_master, b"\xff" if not from_master else write)
        else:
            self.ask(write)
            self.lack(*{"command": [-2], "exchange": [-2, -1]}.get(missing, []))

    def upload(self):
        """UPLOAD of 20 bytes, in a block of three replies."""
        self.send(True, b"\xf5\x14")
        for many in (8, 8, 4):
            self.send(False, b"\xff" + b"\x2a" * many)

    def allocate(self, lists):
        """A set-up without modes, of whose FREE_DAQ and ALLOC_DAQ no replies come."""
        word = self.form.word
        self.send(True, b"\xd6")
        self.send(True, b"\xd5\0" + word(len(lists)))
        for number, it in enumerate(lists, self.form.first):
            self.ask(b"\xd4\0" + word(number) + bytes([len(it.odts)]))
            for k, odt in enumerate(it.odts):
                self.ask(b"\xd3\0" + word(number) + bytes([k, len(odt)]))
            for k, odt in enumerate(it.odts):
                self.write(number, k, odt, False)
            self.ask(b"\xde\x02" + word(number), bytes([0xFF, it.first_pid]))

    # the measurement

    def packets_of(self, number, it):
        """A sample, and its packets."""
        form, data = self.form, self.random
        overload = form.overload == OVERLOAD_PID and data.random() < 0.2
        stamped = form.stamp and (form.fixed or it.stamped)
        ticks = self.ticks & (1 << 8 * form.stamp) - 1 if stamped else None
        values, packets = [], []
        for k, odt in enumerate(it.odts):
            packet = b"" if it.mode & PID_OFF else form.field(it.first_pid * (form.key == 0) + k | overload * (k == 0) << 7, number)
            if it.mode & DTO_CTR:
                packet += form.word(self.ticks & 0xFFFF)
            if stamped and k == 0:
                packet += ticks.to_bytes(form.stamp, "big" if form.order == ">" else "little")
            for extension, address, size in odt:
                value = data.getrandbits(8 * size).to_bytes(size, "big")
                if it.mode & PID_OFF:
                    value = bytes([it.first_pid]) + value[1:]   # this looks like an identification field, and is none
                elif size >= 200 and data.random() < 0.5:
                    value = self.mock_frames() + value[len(self.mock_frames()):]
                values.append((extension, address, value))
                packet += value
            packets.append(packet + b"\xcc" * (3 if it.mode & PID_OFF else form.fill))
        sample = {"list": number, "overload": overload, "ticks": ticks, "values": values, "frames": [],
                  "shown": not it.mode & (STIM | DTO_CTR | PID_OFF)}
        return sample, packets

    def mock_frames(self):
        """Three frames that follow each other, then one whose CTR is too high, and three more; and four without a CTR that rises."""
        counters = [7, 8, 9, 11, 12, 13] + [20, 20, 20, 20]
        return b"".join(struct.pack("<HHB", 1, it, 0xFF) for it in counters) + b"\0\0"

    def measure(self, lists, turns, since, unknown=False, lost=False):
        """Samples of lists that were set up with this frame of the slave; or long before the capture, where they are unknown."""
        self.measurements += 1
        for turn in range(turns):
            self.ticks = (self.ticks + 7) & 0xFFFFFFFF
            due = [self.packets_of(number, it) for number, it in enumerate(lists, self.form.first)
                   if turn % it.every == 0 and not it.mode & STIM]
            for sample, packets in due:
                sample["since"] = since
                sample["shown"] &= not unknown
                if lost and len(packets) > 1 and self.random.random() < 0.08:
                    # the slave itself has no room for a packet, which never gets a CTR
                    packets.pop(self.random.randrange(len(packets)))
                    sample["shown"] = False
            if lost and turn % 16 == 9:
                self.lose(0x7FFE)
            if lost and turn % 16 == 12:
                self.stray()
            # packets of several lists between each other
            waiting = [(sample, list(packets)) for sample, packets in due]
            mixed = []
            while waiting:
                sample, packets = self.random.choice(waiting)
                mixed.append((sample, packets.pop(0)))
                waiting = [it for it in waiting if it[1]]
            while mixed:
                many = self.random.choice((1, 1, 2, 3))
                frames = self.send(False, *(packet for _, packet in mixed[:many]), loose=self.measurements)
                for (sample, _), frame in zip(mixed, frames):
                    sample["frames"].append(frame)
                mixed = mixed[many:]
            self.samples += [sample for sample, _ in due]
            # commands, with samples before their replies
            if turn % 4 == 1:
                asked = 0xDA if turn % 8 == 1 else 0xD9
                self.send(True, bytes([asked]))
            if turn % 4 == 3:
                self.send(False, self.reply_to(asked))
            if self.form.overload == OVERLOAD_EVENT and turn % 7 == 3:
                self.send(False, b"\xfd\x02")

    def stop(self):
        self.ask(b"\xdd\x00")

    # what comes of it

    def spoil(self):
        """Datagrams of samples that are lost, copied, or late; and some with bytes behind their frames."""
        sent = [it for it in self.datagrams if not it.from_master and not it.stray]
        # around frames that are lost already all stay, since none may come later than those
        lost = {at + i for at, it in enumerate(sent) if it.fate == "lost" for i in range(-5, 2)}
        loose = [it for it in sent if it.loose]
        firm = {id(it) for at, it in enumerate(sent) if at in lost}
        places = iter(range(3, len(loose) - 3))
        for at in places:
            draw = self.random.random()
            if id(loose[at]) in firm:
                continue
            if draw < 0.06:
                loose[at].fate = "lost"
            elif draw < 0.12:
                loose[at].fate = "copied"
            elif draw < 0.18:
                loose[at].fate = "copied later"
            elif draw < 0.26:
                loose[at].fate = "late"
                next(places, None)            # behind it one is kept
            if loose[at].fate in ("lost", "late"):
                for frame in loose[at].frames:
                    frame.kept = False
            if draw > 0.8:
                loose[at].tail = self.random.choice((b"\0\0\0\0", b"\0\0", b"\x09\0\x01\0\x55\x55", b"\0\0\x77\x77\xff"))

    def arrivals(self):
        """The datagrams as they come to the capture."""
        coming, held = [], []
        for it in self.datagrams:
            if it.fate == "lost" and not it.loose:
                coming += [late for _, late in held]
                held = []
            if it.fate not in ("lost", "late"):
                coming.append(it)
            if it.fate == "copied":
                coming.append(it)
            if it.fate in ("late", "copied later"):
                held.append([self.random.choice((1, 1, 2, 5)), it])
            elif it.loose and it.fate == "kept":
                for wait in held:
                    wait[0] -= 1
                coming += [late for left, late in held if left == 0]
                held = [wait for wait in held if wait[0] > 0]
        return coming + [late for _, late in held]

    def shown(self):
        """The samples that are shown, each with its mark, in the order in which they are whole."""
        frames = self.frames()
        place = {id(frame): at for at, frame in enumerate(frames)}
        last, shown = {}, []
        whole = [it for it in self.samples if it["shown"]]
        for sample in sorted(whole, key=lambda it: place[id(it["frames"][-1])]):
            first, end = place[id(sample["frames"][0])], place[id(sample["frames"][-1])]
            if not all(frame.kept for frame in frames[first:end + 1]):
                continue
            key = sample["list"], sample["since"]
            gap = not all(frame.kept for frame in frames[last.get(key, sample["since"]):first])
            last[key] = end
            shown.append((sample, sample["overload"] | gap << 1))
        return shown


    def gaps(self):
        """How often frames are missing, or come late, between others."""
        kept = [frame.kept for frame in self.frames()]
        return sum(here and not before for before, here in zip(kept, kept[1:]))


def line_of(sample, mark):
    words = [str(sample["list"]), str(mark), "-" if sample["ticks"] is None else str(sample["ticks"])]
    return " ".join(words + [f"{extension}:{address:08x}:{value.hex()}" for extension, address, value in sample["values"]])


# ---- packets of IP: each with the frames that are whole with it


class Packet:
    def __init__(self, data, frames=()):
        self.data, self.frames = data, list(frames)


def checksum(data):
    total = sum(struct.unpack(f">{(len(data) + 1) // 2}H", data + b"\0" * (len(data) % 2)))
    while total >> 16:
        total = (total & 0xFFFF) + (total >> 16)
    return ~total & 0xFFFF


class Net:
    """The addresses of a master and a slave, in IPv4 or IPv6; perhaps with options in their headers, and bytes behind datagrams."""

    def __init__(self, six=False, master=10, slave=20, port=5555, master_port=49152, room=None, more=False):
        self.six, self.port, self.master_port, self.room, self.more = six, port, master_port, room, more
        self.hosts = [bytes([0xFD] + [0] * 14 + [it]) if six else bytes([192, 168, 7, it]) for it in (slave, master)]
        self.count = itertools.count(0xFFF0)

    def ports(self, from_master):
        return struct.pack(">HH", *((self.master_port, self.port) if from_master else (self.port, self.master_port)))

    def ip(self, from_master, protocol, payload):
        """The packet; or its fragments, where there is no room for it in one."""
        ends = self.hosts[from_master] + self.hosts[not from_master]
        number, packets, at = next(self.count) & 0xFFFF, [], 0
        hops, options = b"", b""
        if self.more and self.six:
            # options for the destination; a route; and for each hop, which stand before the fragment's header
            payload = bytes([43, 1, 1, 12]) + bytes(12) + bytes([protocol, 0, 253, 0]) + bytes(4) + payload
            protocol, hops = 60, bytes([60, 0, 1, 4, 0, 0, 0, 0])
        elif self.more:
            options = b"\x01\x01\x01\x00"
        while at == 0 or at < len(payload):
            part = payload[at:at + self.room] if self.room else payload
            more, whole = at + len(part) < len(payload), len(part) == len(payload)
            if self.six:
                front = b"" if whole else struct.pack(">BBHI", protocol, 0, at | more, number)
                following = protocol if whole else 44
                front = (bytes([following]) + hops[1:] if hops else b"") + front
                head = struct.pack(">IHBB", 6 << 28, len(front + part), 0 if hops else following, 64) + ends + front
            else:
                size = 20 + len(options)
                head = struct.pack(">BBHHHBBH", 0x40 | size // 4, 0, size + len(part), number, more << 13 | at // 8, 64, protocol, 0)
                head += ends + options
                head = head[:10] + struct.pack(">H", checksum(head)) + head[12:]
            packets.append(head + part)
            at += max(len(part), 1)
        return packets

    def summed(self, protocol, data, at):
        """The datagram or segment with its checksum, which stands there."""
        total = checksum(b"".join(self.hosts) + struct.pack(">HH", protocol, len(data)) + data)
        return data[:at] + struct.pack(">H", total or 0xFFFF) + data[at + 2:]

    def udp(self, from_master, payload):
        data = self.ports(from_master) + struct.pack(">HH", 8 + len(payload), 0) + payload
        return self.ip(from_master, 17, self.summed(17, data, 6) + b"\x02\0\x03\0\xff\xff" * self.more)

    def tcp(self, from_master, number, acknowledged, flags, payload=b""):
        options = b"\x01" * (12 if flags & SYN or self.more else 0)
        words = 5 + len(options) // 4
        head = struct.pack(">IIBBHHH", number & 0xFFFFFFFF, acknowledged & 0xFFFFFFFF, words << 4, flags, 0xFFFF, 0, 0) + options
        return self.ip(from_master, 6, self.summed(6, self.ports(from_master) + head + payload, 16))[0]


def by_udp(session, net, spoilt=False):
    packets = []
    for it in session.arrivals():
        parts = [Packet(part) for part in net.udp(it.from_master, it.bytes())]
        if spoilt and len(parts) > 1:
            session.random.shuffle(parts)
            # the bytes of a fragment once more, and others: they come too late
            parts.insert(1, Packet(parts[0].data[:-8] + b"\xee" * 8))
        parts[-1].frames += it.frames
        packets += parts
    if spoilt and net.room:
        for it in session.datagrams:
            parts = net.udp(False, it.bytes()) if it.fate == "lost" else []
            if len(parts) > 1:
                # one fragment of it is there, and the others aren't
                packets.insert(session.random.randrange(len(packets)), Packet(parts[0]))
    return packets


SYN, ACK, FIN = 0x02, 0x10, 0x01


class Wire:
    """A connection by TCP: what each end sends goes out in segments of any length."""

    def __init__(self, net, chance, isn):
        self.net, self.random = net, chance
        self.packets = []                       # (whether by the master, where it begins and ends in the slave's stream, Packet)
        self.next = [isn, isn + 0x7FFFFFF0]     # of the slave, of the master
        self.sent, self.ends = 0, []            # bytes of the slave so far, and where its frames end there
        self.put(True, SYN)
        self.put(False, SYN | ACK)
        self.put(True, ACK)

    def put(self, from_master, flags, payload=b"", back=0):
        """A segment; or bytes that were sent already, so many before."""
        number, other = self.next[from_master] - back, self.next[not from_master]
        packet = Packet(self.net.tcp(from_master, number, other if flags & ACK else 0, flags, payload))
        start = self.sent - back
        if not from_master:
            packet.frames = [frame for end, frame in self.ends if start < end <= start + len(payload)]
        self.packets.append((from_master, start, start + len(payload), packet))
        if not back:
            self.next[from_master] += len(payload) + bool(flags & (SYN | FIN))
            self.sent += 0 if from_master else len(payload)

    def send(self, datagrams, copies, whole):
        """What one end sends in one go: in one segment, or in some."""
        from_master, data = datagrams[0].from_master, b""
        for frame in (frame for it in datagrams for frame in it.frames):
            data += frame.bytes()
            if not from_master:
                self.ends.append((self.sent + len(data), frame))
        at = 0
        while at < len(data):
            many = len(data) if whole else self.random.randint(1, 1300 if len(data) > 1400 else 90)
            self.put(from_master, ACK | 8, data[at:at + many])
            at = min(at + many, len(data))
            if copies and not from_master and self.random.random() < 0.3:
                back = self.random.randint(1, min(at, 100))
                self.put(False, ACK | 8, data[at - back:at], back)
            if not from_master and self.random.random() < 0.2:
                self.put(True, ACK)

    def copy_begin(self):
        """What a connection begins with comes once more, behind what follows it."""
        self.packets[12:12] = self.packets[:2]

    def begin_inside(self):
        """The capture begins with a segment of the slave that begins inside of a frame."""
        ends = [0] + [end for end, _ in self.ends]
        first = next(at for at, it in enumerate(self.packets) if at >= 16 and not it[0] and it[2] > it[1] and it[1] not in ends)
        del self.packets[:first]

    def swap(self):
        """Segments of the slave that come in another order."""
        for at in range(3, len(self.packets) - 1):
            pair = self.packets[at:at + 2]
            if not pair[0][0] and not pair[1][0] and self.random.random() < 0.4:
                self.packets[at:at + 2] = reversed(pair)

    def lose(self, low, high, many):
        """The capture misses segments of the slave between these bytes of its stream, each alone."""
        inside = [it for it in self.packets if not it[0] and low < it[1] < it[2] < high]
        for i in range(many):
            lost = inside[len(inside) * (2 * i + 1) // (2 * many)]
            self.packets.remove(lost)
            for frame in self.frames_in(lost):
                frame.kept = False

    def frames_in(self, segment):
        """The frames of which a segment has a byte."""
        begins = [0] + [it for it, _ in self.ends]
        return [frame for begin, (finish, frame) in zip(begins, self.ends) if begin < segment[2] and finish > segment[1]]

    def end_behind_hole(self, many):
        """The capture misses the frame before the last ones, each of which is a segment, and has nothing of the master behind it: too few
        of them aren't read."""
        frames = [frame for _, frame in self.ends]
        lost = [it for it in self.packets if not it[0] and it[2] > it[1]][-1 - many]
        at = self.packets.index(lost)
        self.packets = self.packets[:at] + [it for it in self.packets[at + 1:] if not it[0]]
        for frame in frames[-1 - many:-many] if many >= 4 else frames[-1 - many:]:
            frame.kept = False


def connections_of(session):
    """The datagrams of each connection."""
    runs = [[]]
    for it in session.datagrams:
        runs += [[]] if it.connects else []
        runs[-1].append(it)
    return runs


def by_tcp(session, net, copies=False, holes=0, inside=False, last=0):
    """A connection, or more: one begins with each datagram that says so. The capture may begin inside of it, or end so many frames behind a
    hole."""
    packets, isn = [], 0xFFFFFE00
    for run in connections_of(session):
        wire, loose = Wire(net, session.random, isn), []
        for _, part in itertools.groupby(run, key=lambda it: it.from_master):
            part = list(part)
            start = wire.sent
            alone = [[Datagram(it.from_master, [frame])] for it in part for frame in it.frames]
            for each in alone if last else [part]:
                wire.send(each, copies, bool(last))
            if any(it.loose == 1 for it in part):
                loose += [start, wire.sent]
        if copies:
            wire.swap()
            wire.copy_begin()
        if holes:
            wire.lose(loose[0] + 100, loose[-1], holes)
        if inside:
            wire.begin_inside()
        if last:
            wire.end_behind_hole(last)
        else:
            wire.put(True, FIN | ACK)
            wire.put(False, FIN | ACK)
            wire.put(True, ACK)
        packets += [it[3] for it in wire.packets]
        isn += 0x12345678
    return packets


# ---- frames of links, and files

ETHERNET, NULL, LOOP, SLL, SLL2 = 1, 0, 108, 113, 276
CHECKED = ETHERNET | 0x24000000   # with a checksum of two words behind each frame
# the link type, and what stands before the packet: kind is the type of Ethernet, six whether the packet is of IPv6
LINKS = {
    "ethernet": (ETHERNET, lambda kind, six: b"\x02\0\0\0\0\x01\x02\0\0\0\0\x02" + kind),
    "checked": (CHECKED, lambda kind, six: b"\x02\0\0\0\0\x01\x02\0\0\0\0\x02" + kind),
    "vlan": (ETHERNET, lambda kind, six: b"\x02\0\0\0\0\x01\x02\0\0\0\0\x02\x81\0\x20\x07" + kind),
    "two_vlans": (ETHERNET, lambda kind, six: b"\x02\0\0\0\0\x01\x02\0\0\0\0\x02\x88\xa8\0\x05\x81\0\x20\x07" + kind),
    "cooked": (SLL, lambda kind, six: b"\0\x04\0\x01\0\x06\x02\0\0\0\0\x01\0\0" + kind),
    "cooked_2": (SLL2, lambda kind, six: kind + b"\0\0\0\0\0\x03\0\x01\x04\x06\x02\0\0\0\0\x01\0\0"),
    "raw": (101, lambda kind, six: b""),
    "raw_12": (12, lambda kind, six: b""),
    "raw_14": (14, lambda kind, six: b""),
    "raw_4": (228, lambda kind, six: b""),
    "raw_6": (229, lambda kind, six: b""),
    "null": (NULL, lambda kind, six: bytes([30 if six else 2, 0, 0, 0])),
    "null_msb": (NULL, lambda kind, six: bytes([0, 0, 0, 24 if six else 2])),
    "loop": (LOOP, lambda kind, six: bytes([0, 0, 0, 28 if six else 2])),
}


def framed(link, data):
    six = data[0] >> 4 == 6
    kind, front = LINKS[link]
    data = front(b"\x86\xdd" if six else b"\x08\x00", six) + data
    if kind & 0xFFFF == ETHERNET:
        data = data.ljust(60, b"\x55")          # a card fills up
    return kind, data + b"\x02\0\0\0" if kind == CHECKED else data


BEGIN, STEP = 1800000000 * 10**9, 250000000   # nanoseconds; a power of 2 of them is a quarter of a second


class Times:
    def __init__(self):
        self.now = BEGIN

    def of(self, packet, told=True):
        self.now += STEP
        for frame in packet.frames:
            if frame.time is None:
                frame.time = self.now if told else "-"
        return self.now


def pcap(packets, order, nanoseconds, link):
    times, unit = Times(), 1 if nanoseconds else 1000
    out = struct.pack(order + "IHHIIII", 0xA1B23C4D if nanoseconds else 0xA1B2C3D4, 2, 4, 0, 0, 262144, LINKS[link][0])
    for packet in packets:
        seconds, rest = divmod(times.of(packet), 10**9)
        _, data = framed(link, packet.data)
        out += struct.pack(order + "4I", seconds, rest // unit, len(data), len(data)) + data
    return out


def block(order, kind, body):
    body += b"\0" * (-len(body) % 4)
    return struct.pack(order + "II", kind, 12 + len(body)) + body + struct.pack(order + "I", 12 + len(body))


def option(order, code, value):
    return struct.pack(order + "HH", code, len(value)) + value + b"\0" * (-len(value) % 4)


def section(order):
    options = option(order, 3, b"made up") + option(order, 0, b"")
    return block(order, 0x0A0D0D0A, struct.pack(order + "IHHq", 0x1A2B3C4D, 1, 0, -1) + options)


def interface(order, link, resolution=None, offset=None):
    body = struct.pack(order + "HHI", LINKS[link][0], 0, 0) + option(order, 2, b"eth")
    if resolution is not None:
        body += option(order, 9, bytes([resolution]))
    if offset is not None:
        body += option(order, 14, struct.pack(order + "q", offset))
    return block(order, 1, body + option(order, 0, b""))


def enhanced(order, which, time, ticks, offset, data):
    count = (time - offset * 10**9) * ticks // 10**9
    body = struct.pack(order + "5I", which, count >> 32, count & 0xFFFFFFFF, len(data), len(data)) + data + b"\0" * (-len(data) % 4)
    return block(order, 6, body + option(order, 1, b"a comment") + option(order, 0, b""))


def pcapng(packets):
    """Two sections, in both orders, with interfaces of several links and times."""
    times, half, out = Times(), len(packets) // 2, b""
    for order, part, links in (("<", packets[:half], [("ethernet", None, 10**6, 0), ("raw", 9, 10**9, 0), ("cooked_2", 0x85, 2**5, 0)]),
                               (">", packets[half:], [("cooked", 3, 10**3, -7), ("vlan", 0x89, 2**9, 1000000)])):
        out += section(order)
        for link, resolution, _, offset in links[:-1]:
            out += interface(order, link, resolution, offset or None)
        out += block(order, 4, b"\0" * 8) + block(order, 0x0BAD, b"unknown")
        for at, packet in enumerate(part):
            if at == 5:
                # an interface is described once it is there
                out += interface(order, links[-1][0], links[-1][1], links[-1][3] or None)
            which = at % (len(links) if at >= 5 else len(links) - 1)
            link, _, ticks, offset = links[which]
            out += enhanced(order, which, times.of(packet), ticks, offset, framed(link, packet.data)[1])
        out += block(order, 5, struct.pack(order + "III", 0, 0, 0))
    return out


def simple_pcapng(packets, order):
    """Simple packets have no time, and are those of the first interface."""
    times, out = Times(), section(order) + interface(order, "ethernet") + interface(order, "raw")
    for at, packet in enumerate(packets):
        time, data = times.of(packet, at % 2 == 0), framed("ethernet", packet.data)[1]
        body = struct.pack(order + "I", len(data)) + data
        out += enhanced(order, 0, time, 10**6, 0, data) if at % 2 == 0 else block(order, 3, body)
    return out


# ---- the captures


def other_traffic(packets):
    """Packets that are none of XCP, between the others: by UDP and TCP to other ports, ICMP, and what is too short."""
    net = Net(port=80, master_port=40000)
    others = itertools.cycle([net.udp(True, b"\x02\0\0\0\xff\0")[0], net.tcp(True, 1, 1, 0x18, b"GET /"), net.ip(True, 1, b"\x08\0\0\0")[0],
                              net.ip(True, 17, b"\0")[0], b"\x45\0\0"])
    out = []
    for at, packet in enumerate(packets):
        out += ([Packet(next(others))] if at % 3 == 0 else []) + [packet]
    return out


def session_of(name, kind, turns=16):
    """What master and slave of a form send: once, in trouble, a second time, or begun before the capture."""
    form, session = FORMS[name], Session(FORMS[name], name + kind)
    if kind == "middle":
        session.measure(LISTS[name], 12, 0, unknown=True)
        for _ in range(6):
            session.ask(b"\xfd", b"\xff\x40\0\0" + form.word(0))
        session.stop()
        session.connect()
        session.measure(AGAIN[name], 15, session.set_up(AGAIN[name]))
        return session
    session.connect(trouble=kind == "refused")
    since = session.set_up(LISTS[name], trouble=kind == "refused", lost=kind == "lost")
    session.measure(LISTS[name], turns, since, lost=kind == "lost")
    if kind == "lost":
        session.spoil()
    if kind == "on":
        return session
    session.stop()
    if kind == "twice":
        begins = len(session.datagrams)
        # another set-up in the same session, or one after a restart
        if name in "ac":
            session.ask(b"\xfe")
            session.connect(counts_anew=True)
            session.datagrams[begins + 2].connects = True
        session.measure(AGAIN[name], 10, session.set_up(AGAIN[name]))
        if name == "d":
            session.stop()
            alone = [List([[(0, 0x600, 4)]], stamped=False, first_pid=0x11, mode=PID_OFF)]
            session.measure(alone, 5, session.set_up(alone))
        session.stop()
    return session


# what is missing where an entry of the first list is written anew, and whether the lists are known behind it: of a master that counts its
# frames, and of one that doesn't
ANEW = {
    "nothing": "both", "command": "neither", "exchange": "counted", "pointer": "neither", "synch": "counted", "modes": "neither",
    "nothing, but a reply is late": "first", "nothing, but it is sent again": "neither",
    "nothing, but more replies come": "both", "a command behind more replies": "neither",
}


def anew_of(name, missing, counts):
    """A session in which an entry is written anew between two measurements; then all is set up another time."""
    form, session = FORMS[name], Session(FORMS[name], name + missing)
    session.connect()
    session.measure(LISTS[name], 8, session.set_up(LISTS[name]))
    session.stop()
    lists = LISTS[name][:]
    (extension, address, size), *others = lists[0].odts[0]
    entry = extension, address ^ 0x44, size
    lists[0] = copy.copy(lists[0])
    lists[0].odts = [[entry, *others], *lists[0].odts[1:]]
    if missing == "modes":
        session.allocate(lists)
    else:
        session.write_anew(entry, missing)
    for _ in range(2):
        session.ask(b"\xfd", b"\xff\x40\0\0" + form.word(0))
    session.ask(b"\xdd\x01")
    begin = len(session.samples)
    session.measure(lists, 8, len(session.frames()))
    for sample in session.samples[begin:]:
        is_first = sample["list"] == form.first
        sample["shown"] &= {"both": True, "neither": False, "first": not is_first, "counted": not counts and not is_first}[ANEW[missing]]
    session.stop()
    session.measure(AGAIN[name], 8, session.set_up(AGAIN[name]))
    if not counts:
        for frame in (frame for it in session.datagrams if it.from_master for frame in it.frames):
            frame.counter = 0
    return session


class Folder:
    def __init__(self, path):
        self.path = path

    def put(self, name, ending, data, sessions, words=""):
        shown = [(sample["frames"][-1].time, at, sample, mark) for session in sessions
                 for at, (sample, mark) in enumerate(session.shown())]
        if len(sessions) > 1:
            shown.sort(key=lambda it: it[0])
        (self.path / f"{name}.{ending}").write_bytes(data)
        (self.path / f"{name}.expected").write_text("".join(line_of(sample, mark) + "\n" for _, _, sample, mark in shown))
        times = [f"{sample['frames'][0].time} {sample['frames'][-1].time}\n" for _, _, sample, _ in shown]
        (self.path / f"{name}.times").write_text("".join(times))
        (self.path / f"{name}.stamp").write_text(f"{sessions[0].form.stamp}\n")
        numbers = [sample["list"] for _, _, sample, _ in shown]
        lines = [f"list {it} samples {numbers.count(it)}" for it in sorted(set(numbers))] + [f"gaps {sum(it.gaps() for it in sessions)}"]
        (self.path / f"{name}.counts").write_text("\n".join(lines) + "\n")
        (self.path / f"{name}.words").write_text(words + "\n")


def main():
    folder = Folder(pathlib.Path(sys.argv[1]))
    files = itertools.cycle([("<", False, "ethernet"), (">", False, "vlan"), ("<", True, "cooked"), (">", True, "cooked_2"),
                             ("<", True, "raw"), (">", False, "null_msb"), ("<", False, "two_vlans")])
    # each form by UDP, in IPv4 and IPv6 by turns; the long packets of c in fragments of both
    for name, kind in itertools.product("abcde", ("plain", "lost", "refused", "twice", "middle")):
        for six in (False, True) if name == "c" else ((name in "bd") ^ (kind in ("lost", "twice")),):
            session = session_of(name, kind, 80 if kind == "lost" else 16)
            net = Net(six, room=576 if name == "c" else None, more=kind in ("lost", "twice"))
            packets = by_udp(session, net, spoilt=kind == "lost")
            folder.put(f"{name}_udp{'6' if six else '4'}_{kind}", "pcap", pcap(packets, *next(files)), [session])
    # an entry is written anew, and packets of that may be missing; where both the command and its reply are, only CTR tells it
    for name, missing, counts in itertools.product("ad", ANEW, (True, False)):
        if counts or missing != "exchange":
            session = anew_of(name, missing, counts)
            how = f"{missing.replace(',', '').replace(' ', '_')}{'' if counts else '_uncounted'}"
            folder.put(f"{name}_anew_{how}", "pcap", pcap(by_udp(session, Net()), *next(files)), [session])
    # and by TCP: a connection is one session, but for hole_twice, where a slave counts anew in one
    for name, kind in itertools.product("abcde", ("plain", "copies", "hole", "hole_twice", "twice", "middle")):
        holes = 4 if kind.startswith("hole") else 0
        session = session_of(name, {"copies": "refused", "hole": "plain", "hole_twice": "twice"}.get(kind, kind), 60 if holes else 16)
        if kind == "hole_twice":
            for it in session.datagrams:
                it.connects = False
        packets = by_tcp(session, Net(name in "bc", more=kind == "twice"), copies=kind == "copies", holes=holes,
                         inside=kind == "middle")
        folder.put(f"{name}_tcp_{kind}", "pcap", pcap(packets, *next(files)), [session])
    for many in (3, 4, 5):
        session = session_of("d", "on")
        folder.put(f"end_behind_{many}", "pcap", pcap(by_tcp(session, Net(), last=many), *next(files)), [session])
    # each link in each kind of file
    for link in LINKS:
        session = session_of("a", "plain")
        packets = by_udp(session, Net(six=link in ("raw_6", "loop", "null")))
        if link not in ("raw_6", "loop", "null"):
            packets = other_traffic(packets)
        folder.put(f"link_{link}", "pcap", pcap(packets, "<", True, link), [session])
    for order, nanoseconds in itertools.product("<>", (False, True)):
        session = session_of("d", "twice")
        data = pcap(by_udp(session, Net(port=6000)), order, nanoseconds, "raw")
        name = f"file_{'lsb' if order == '<' else 'msb'}_{'nano' if nanoseconds else 'micro'}seconds"
        folder.put(name, "pcap", data, [session], "--port 6000")
    for kind in ("plain", "twice"):
        session = session_of("b", kind)
        folder.put(f"sections_{kind}", "pcapng", pcapng(other_traffic(by_udp(session, Net()))), [session])
    for order in "<>":
        session = session_of("a", "lost", 40)
        folder.put(f"simple_{'lsb' if order == '<' else 'msb'}", "pcapng", simple_pcapng(by_udp(session, Net()), order), [session])
    for six in (False, True):
        session = session_of("e", "plain")
        folder.put(f"checked_tcp{'6' if six else '4'}", "pcap", pcap(by_tcp(session, Net(six)), "<", False, "checked"), [session])
    # two masters of two slaves, between each other
    sessions = [session_of("a", "refused"), session_of("b", "twice")]
    pair = [by_udp(sessions[0], Net()), by_udp(sessions[1], Net(master=11, slave=21))]
    packets = [it for both in itertools.zip_longest(*pair) for it in both if it is not None]
    folder.put("two_slaves", "pcap", pcap(packets, "<", True, "ethernet"), sessions)


if __name__ == "__main__":
    main()
