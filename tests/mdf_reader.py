#!/usr/bin/env python3
"""Reads a measurement file (ASAM MDF 4.1): a reader of its own, beside the crates mdf_blocks and mdf_file, written from the format alone.
It is strict: each block and each link is looked at, and what the format doesn't allow is Broken; so is what no file of this project needs,
such as compression, events, or records of several kinds in one data group.

    tests/mdf_reader.py FILE      prints the groups, with the channels and the first values of each

    file = mdf_reader.read(PATH)  .start_ns, .tool, .groups
    group = file.groups[0]        .name, .records (how many), .channels, .channel(NAME), .master
    channel = group.channels[0]   .name, .unit, .comment, .limits, .axis ("time", "index" or None), .raws(), .physicals()"""

import collections
import functools
import math
import struct
import sys
from xml.etree import ElementTree

SHARED = {"##TX", "##MD", "##CC", "##SI"}       # a block that several may link to
# how many links a block has, and how many bytes behind them; where either is None, the block itself tells
FORMS = {"##HD": (6, 32), "##FH": (2, 16), "##DG": (4, 8), "##CG": (6, 32), "##CN": (8, 72), "##CC": (None, None), "##SI": (3, 8),
         "##TX": (0, None), "##MD": (0, None), "##DT": (0, None), "##DL": (None, None)}
VALUE, MASTER, VIRTUAL_MASTER = 0, 2, 3
AXES = {1: "time", 4: "index"}
UNSIGNED, SIGNED, FLOAT = 0, 1, 2               # the data type, less the byte order in its lowest bit
IDENTICAL, LINEAR, RATIONAL, VALUE_TO_TEXT, RANGE_TO_TEXT = 0, 1, 2, 7, 8
FLOAT_FORMS = {16: "<e", 32: "<f", 64: "<d"}


class Broken(Exception):
    """What the format doesn't allow, or this reader doesn't know."""


class Unfinished(Broken):
    """Nobody finished the file."""


def check(holds, words):
    if not holds:
        raise Broken(words)


class Block(collections.namedtuple("Block", "at kind links body")):
    def fields(self, form):
        """The first fields of the body, by a form of struct."""
        check(len(self.body) >= struct.calcsize("<" + form), f"{self.kind} at {self.at} is too short")
        return struct.unpack_from("<" + form, self.body)


class Blocks:
    """The blocks of a file, each of which is looked at when something links to it."""

    def __init__(self, data):
        self.data, self.ends = data, {}

    def block(self, at, *kinds):
        """The block at a place, which is of one of these kinds."""
        check(at % 8 == 0 and 64 <= at <= len(self.data) - 24, f"a link to {at}, where {kinds[0]} can't stand")
        kind, reserved, length, count = struct.unpack_from("<4sIQQ", self.data, at)
        kind = kind.decode("latin-1")
        check(kind in kinds, f"{kind} at {at}, where {kinds} is linked to")
        check(reserved == 0, f"{kind} at {at} has reserved bytes other than 0")
        links, body = FORMS[kind]
        check(links in (None, count), f"{kind} at {at} has {count} links")
        front = at + 24 + 8 * count
        check(front <= at + length <= len(self.data) and body in (None, at + length - front), f"{kind} at {at} has the length {length}")
        check(at not in self.ends or kind in SHARED, f"{kind} at {at} is linked to twice")
        self.ends[at] = at + length
        return Block(at, kind, struct.unpack_from(f"<{count}Q", self.data, at + 24), self.data[front:at + length])

    def chain(self, at, kind):
        """Blocks of which each links to the next one by its first link."""
        while at:
            block = self.block(at, kind)
            yield block
            at = block.links[0]

    def words(self, at, *kinds):
        """The text or the XML at a place, or None if the link is 0."""
        if at == 0:
            return None
        block = self.block(at, *(kinds or ["##TX", "##MD"]))
        text, zero, behind = block.body.partition(b"\0")
        check(zero and not behind.strip(b"\0") and len(behind) < 8, f"{block.kind} at {at} has no single end")
        try:
            text = text.decode("utf-8")
            return text if block.kind == "##TX" else element(text)
        except (UnicodeDecodeError, ElementTree.ParseError) as fault:
            raise Broken(f"{block.kind} at {at}: {fault}") from fault

    def text(self, at):
        """The text at a place, also if it stands in XML."""
        words = self.words(at)
        return words.findtext("TX") if isinstance(words, ElementTree.Element) else words

    def check_places(self):
        """No two blocks have a byte in common."""
        end = 64
        for at in sorted(self.ends):
            check(end <= at, f"the block at {at} begins within the one before it")
            end = self.ends[at]


def element(text):
    """XML, without its name spaces."""
    root = ElementTree.fromstring(text)
    for it in root.iter():
        it.tag = it.tag.split("}")[-1]
    return root


class Conversion:
    """What makes physical values of raw ones (CC)."""

    def __init__(self, blocks, at):
        block = blocks.block(at, "##CC")
        self.kind, _, flags, refs, count, _, _ = block.fields("BBHHHdd")
        check(len(block.links) == 4 + refs and len(block.body) == 24 + 8 * count, f"the conversion at {at} has another length")
        self.values = struct.unpack_from(f"<{count}d", block.body, 24)
        _, self.unit, _ = map(blocks.text, block.links[:3])
        check(block.links[3] == 0 and flags <= 7, f"the conversion at {at} has an inverse, or the flags {flags}")
        self.texts = [blocks.words(it, "##TX") for it in block.links[4:]]
        self.check_numbers(at, refs, count)

    def check_numbers(self, at, refs, count):
        check(self.kind in (IDENTICAL, LINEAR, RATIONAL, VALUE_TO_TEXT, RANGE_TO_TEXT), f"a conversion of type {self.kind}")
        if self.kind in (VALUE_TO_TEXT, RANGE_TO_TEXT):
            width = 1 if self.kind == VALUE_TO_TEXT else 2
            check(count == width * (refs - 1), f"the conversion at {at} has {count} numbers for {refs} texts")
            check(None not in self.texts[:-1], f"the conversion at {at} lacks a text")
            lows, highs = self.values[::width], self.values[width - 1::width]
            check(all(low <= high for low, high in zip(lows, highs)), f"a range of the conversion at {at} is empty")
            check(all(high < low for high, low in zip(highs, lows[1:])), f"the numbers of the conversion at {at} don't rise")
        else:
            wanted = {IDENTICAL: 0, LINEAR: 2, RATIONAL: 6}[self.kind]
            check((refs, count) == (0, wanted), f"the conversion at {at} has {count} numbers and {refs} texts")
            check(all(map(math.isfinite, self.values)), f"the conversion at {at} has numbers that are none")

    def physical(self, raw, whole):
        """The physical value of a raw one; `whole` tells whether the raw values are integers."""
        if self.kind == IDENTICAL:
            return raw
        x = float(raw)
        if self.kind == LINEAR:
            return self.values[0] + self.values[1] * x
        if self.kind == RATIONAL:
            return divided(polynomial(self.values[:3], x), polynomial(self.values[3:], x))
        if self.kind == VALUE_TO_TEXT:
            rows = (low == x for low in self.values)
        else:
            rows = (low <= x and (x <= high if whole else x < high) for low, high in zip(self.values[::2], self.values[1::2]))
        text = self.texts[next((at for at, holds in enumerate(rows) if holds), -1)]
        return raw if text is None else text


def polynomial(factors, x):
    """a x^2 + b x + c. A term whose factor is 0 is none, even where x is infinite or its square too great for a float."""
    terms = [factor * power for factor, power in zip(factors, (x * x, x, 1.0)) if factor != 0]
    return functools.reduce(float.__add__, terms) if terms else 0.0


def divided(a, b):
    """As IEEE 754 divides."""
    if b != 0:
        return a / b
    return math.nan if a == 0 or a != a else math.copysign(math.inf, a) * math.copysign(1, b)


class Channel:
    """A value of each record (CN)."""

    def __init__(self, blocks, block):
        _, composition, name, source, conversion, data, unit, comment = block.links
        (self.kind, sync, data_type, self.bit, self.byte, self.bits, flags, invalid, _, reserved, attachments, _, _,
         least, greatest, _, _) = block.fields("BBBBIIIIBBHdddddd")
        self.name = blocks.words(name, "##TX")
        self.comment = blocks.text(comment)
        self.conversion = Conversion(blocks, conversion) if conversion else None
        self.unit = blocks.text(unit) or self.conversion and self.conversion.unit
        read_source(blocks, source)
        self.at = f"the channel {self.name!r} at {block.at}"
        check(self.name, f"{self.at} has no name")
        check((composition, data, attachments, reserved, invalid) == (0, 0, 0, 0, 0), f"{self.at} has more than a value")
        check(flags & ~0x10 == 0 and data_type <= 5, f"{self.at} has the flags {flags} and the data type {data_type}")
        self.limits = (least, greatest) if flags & 0x10 else None
        check(self.limits is None or least <= greatest, f"{self.at} has limits that are none")
        self.form, self.motorola = divmod(data_type, 2)
        self.check_kind(sync)
        self.axis = AXES.get(sync)
        # the byte of a record behind its last one
        self.end = self.byte + (self.bit + self.bits + 7) // 8

    def check_kind(self, sync):
        check(sync == 0 if self.kind == VALUE else self.kind in (MASTER, VIRTUAL_MASTER) and sync in AXES,
              f"{self.at} is of the types {self.kind} and {sync}")
        if self.kind == VIRTUAL_MASTER:
            check((self.form, self.motorola, self.bit, self.byte, self.bits) == (0, 0, 0, 0, 0), f"{self.at} is virtual, and has bits")
        elif self.form == FLOAT:
            check(self.bit == 0 and self.bits in FLOAT_FORMS, f"{self.at} is a float of {self.bits} bits")
        else:
            check(self.bit <= 7 and 1 <= self.bits <= 64, f"{self.at} has {self.bits} bits from bit {self.bit} on")

    def give(self, data, width, records):
        """Its bytes are in these records."""
        check(self.end <= width, f"{self.at} goes beyond the record")
        self.data, self.width, self.records = data, width, records

    def raw(self, record):
        if self.kind == VIRTUAL_MASTER:
            return record
        begin = record * self.width
        number = int.from_bytes(self.data[begin + self.byte:begin + self.end], "big" if self.motorola else "little")
        number = number >> self.bit & (1 << self.bits) - 1
        if self.form == FLOAT:
            return struct.unpack(FLOAT_FORMS[self.bits], number.to_bytes(self.bits // 8, "little"))[0]
        if self.form == SIGNED and number >> self.bits - 1:
            number -= 1 << self.bits
        return number

    def raws(self):
        return [self.raw(it) for it in range(self.records)]

    def physicals(self):
        return [self.conversion.physical(it, self.form != FLOAT) if self.conversion else it for it in self.raws()]


def read_source(blocks, at):
    """Where values come from (SI): that it is well formed."""
    if at:
        block = blocks.block(at, "##SI")
        kind, bus, flags, reserved = block.fields("BBB5s")
        check(kind <= 4 and bus <= 7 and flags <= 1 and not any(reserved), f"the source at {at} has other fields")
        for link in block.links:
            blocks.text(link)


class Group:
    """A data group (DG) with its one channel group (CG)."""

    def __init__(self, blocks, block, bare):
        _, inner, data, comment = block.links
        record_id, reserved = block.fields("B7s")
        check(record_id == 0 and not any(reserved), f"the data group at {block.at} has more kinds of records than one")
        blocks.text(comment)
        group = blocks.block(inner, "##CG")
        behind, channels, name, source, reductions, comment = group.links
        number, self.records, flags, _, reserved, self.width, invalid = group.fields("QQHHIII")
        check((behind, reductions, number, flags, reserved, invalid) == (0, 0, 0, 0, 0, 0), f"the channel group at {inner} has more")
        self.name = blocks.words(name, "##TX")
        read_source(blocks, source)
        blocks.text(comment)
        self.channels = [Channel(blocks, it) for it in blocks.chain(channels, "##CN")]
        self.check_channels(bare)
        self.read_records(blocks, data)

    def check_channels(self, bare):
        names = [it.name for it in self.channels]
        check(len(set(names)) == len(names), f"two channels of the group {self.name!r} have one name")
        masters = [it for it in self.channels if it.kind != VALUE and (it.conversion is None or not it.conversion.texts)]
        check(len(masters) == 1 or bare and not masters, f"the group {self.name!r} has {len(masters)} masters")
        self.master = masters[0] if masters else None

    def read_records(self, blocks, at):
        data = b"".join(data_blocks(blocks, at))
        check(len(data) == self.width * self.records, f"{len(data)} bytes of {self.records} records of {self.width} bytes: {self.name!r}")
        for channel in self.channels:
            channel.give(data, self.width, self.records)
        if self.master and self.master.axis == "time":
            times = self.master.physicals()
            check(all(map(math.isfinite, times)) and times == sorted(times), f"the time of {self.name!r} falls, or is none")

    def channel(self, name):
        return next(it for it in self.channels if it.name == name)


def data_blocks(blocks, at):
    """The bytes of the records: of a data block, or of those that lists have."""
    if at and blocks.data[at:at + 4] != b"##DL":
        yield blocks.block(at, "##DT").body
        return
    before = 0
    for block in blocks.chain(at, "##DL"):
        flags, reserved, count = block.fields("B3sI")
        check((len(block.links), len(block.body)) == (1 + count, 8 + 8 * count), f"the list at {block.at} has another length")
        check(flags == 0 and not any(reserved), f"the list at {block.at} has the flags {flags}")
        for place, link in zip(struct.unpack_from(f"<{count}Q", block.body, 8), block.links[1:]):
            check(place == before, f"the list at {block.at} has a data block at {place}, and {before} bytes stand before it")
            data = blocks.block(link, "##DT").body
            before += len(data)
            yield data


class File:
    def __init__(self, data, bare):
        check_identification(data)
        blocks = Blocks(data)
        header = blocks.block(64, "##HD")
        groups, histories, *others, comment = header.links
        self.start_ns, self.zone, self.daylight, flags, clock, more, reserved, _, _ = header.fields("QhhBBBBdd")
        check(not any((*others, more, reserved)), "the header has more than groups")
        check(flags in (0, 1, 2) and clock in (0, 10, 16), f"the header has the flags {flags} and the clock {clock}")
        self.comment = blocks.text(comment)
        self.read_histories(blocks, histories, bare)
        self.groups = [Group(blocks, it, bare) for it in blocks.chain(groups, "##DG")]
        blocks.check_places()

    def read_histories(self, blocks, at, bare):
        """Who wrote the file: the last one is the tool."""
        check(at, "the header has no history")
        for block in blocks.chain(at, "##FH"):
            _, _, _, flags, reserved = block.fields("QhhB3s")
            check(flags in (0, 1, 2) and not any(reserved), f"the history at {block.at} has other fields")
            comment = blocks.words(block.links[1], "##MD")
            check(comment is not None and comment.tag == "FHcomment", f"the history at {block.at} has no comment")
            self.tool = {name: comment.findtext(name) for name in ("TX", "tool_id", "tool_vendor", "tool_version")}
            check(bare or all(self.tool.values()), f"the history at {block.at} doesn't tell of the tool: {self.tool}")


def check_identification(data):
    """The block at the front of each file."""
    check(len(data) >= 64, "no file of MDF: it is too short")
    kind, version, _, number = struct.unpack_from("<8s8s8s4xH", data)
    flags = struct.unpack_from("<HH", data, 60)
    if kind == b"UnFinMF ":
        raise Unfinished(f"the file isn't finished, with the flags {flags}")
    check(kind == b"MDF     ", f"no file of MDF: it begins with {kind}")
    check((version, number) == (b"4.10    ", 410), f"version {version}, {number}")
    check(flags == (0, 0), f"the file is finished, with the flags {flags}")
    check(not any(data[24:28]) and not any(data[30:60]), "reserved bytes of the identification aren't 0")


def read(path, bare=False):
    """What a file tells; `bare` allows groups without a master, and a history that doesn't tell of a tool."""
    with open(path, "rb") as file:
        return File(file.read(), bare)


def main(path):
    file = read(path)
    print(f"start {file.start_ns} ns, {file.tool}")
    for group in file.groups:
        print(f"{group.name}: {group.records} records of {group.width} bytes")
        for channel in group.channels:
            print(f"  {channel.name} [{channel.unit or ''}] {channel.comment or ''}: {channel.physicals()[:5]}")


if __name__ == "__main__":
    main(*sys.argv[1:])
