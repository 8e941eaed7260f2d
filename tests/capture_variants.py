#!/usr/bin/env python3
"""Makes other captures of one that tests/captures_kept/keep.sh recorded: as if packets had been lost, captured twice or late, as if the
session had been held once more, and as if the capture had begun in the middle of the first measurement.

    tests/capture_variants.py CAPTURE FOLDER                writes FOLDER/NAME.pcap for each NAME of this table
    tests/capture_variants.py --without CAPTURE FOLDER      writes FOLDER/N.pcap for each packet N in front of the first measurement, which
                                                            lacks this one

lost      each ninth packet is missing, from the first measurement on
copied    each fifth packet stands there twice
late      each seventh packet comes behind the one that follows it, from the first measurement on
twice     the session is held once more, a second behind its end, by the same ports; by TCP in a connection of its own: all numbers of its
          bytes are others, and so is what is acknowledged
moved     the same, by another port of the master
middle    the capture begins in the first measurement, so nobody tells of its lists"""

import pathlib
import struct
import sys

SLAVE, OTHER_MASTER = 5555, 45555                  # ports
TCP = 6
TURNED = {True: 0x5EADBEEF, False: 0xC0FFEE11}     # by how much the numbers of a side's bytes differ, modulo 2^32


def records_of(data):
    """The header of a pcap file of this machine's byte order, and its records."""
    assert data[:4] == struct.pack("<I", 0xA1B2C3D4), "a pcap file of microseconds"
    records, at = [], 24
    while at < len(data):
        end = at + 16 + struct.unpack_from("<I", data, at + 8)[0]
        records.append(data[at:end])
        at = end
    return data[:24], records


# ---- a record: its own header, that of Ethernet, that of IPv4, and that of UDP or TCP, which begins with the ports


def protocol_of(record):
    return record[30 + 9]


def ports_at(record):
    assert record[28:30] == b"\x08\0", "IPv4 by Ethernet"
    return 30 + (record[30] & 15) * 4


def is_of_master(record):
    return struct.unpack_from(">HH", record, ports_at(record))[1] == SLAVE


def packets_of_master(records):
    """What the master sent, each packet with the number of its record: it sends one at a time."""
    for number, record in enumerate(records):
        at = ports_at(record)
        payload = record[at + (8 if protocol_of(record) != TCP else (record[at + 12] >> 4) * 4):]
        if is_of_master(record) and len(payload) > 4:
            assert struct.unpack_from("<H", payload)[0] == len(payload) - 4
            yield number, payload[4:]


def measurements_of(records):
    """From where to where START_STOP_SYNCH has lists run."""
    starts = [number for number, packet in packets_of_master(records) if packet == b"\xdd\x01"]
    stops = [number for number, packet in packets_of_master(records) if packet == b"\xdd\x00"]
    return list(zip(starts, stops))


def patched(record, form, at, *values):
    record = bytearray(record)
    struct.pack_into(form, record, at, *values)
    return bytes(record)


def later(record, seconds):
    return patched(record, "<I", 0, struct.unpack_from("<I", record)[0] + seconds)


def renumbered(record):
    """With other numbers of its bytes, if it is by TCP, and of those that it acknowledges, if it does."""
    if protocol_of(record) != TCP:
        return record
    at, side = ports_at(record), is_of_master(record)
    number, acknowledged = struct.unpack_from(">II", record, at + 4)
    acknowledges = bool(record[at + 13] & 0x10)
    return patched(record, ">II", at + 4, (number + TURNED[side]) % 2**32, acknowledges * ((acknowledged + TURNED[not side]) % 2**32))


def of_other_master(record):
    return patched(record, ">H", ports_at(record) + (0 if is_of_master(record) else 2), OTHER_MASTER)


def exchanged(records, each):
    """Records of which each such one comes behind the one that follows it."""
    records = records[:]
    for at in range(each, len(records) - 1, each):
        records[at], records[at + 1] = records[at + 1], records[at]
    return records


def leave_out(capture, folder):
    header, records = records_of(pathlib.Path(capture).read_bytes())
    for number in range(measurements_of(records)[0][0]):
        left = records[:number] + records[number + 1:]
        (pathlib.Path(folder) / f"{number}.pcap").write_bytes(header + b"".join(left))


def main(capture, folder):
    header, records = records_of(pathlib.Path(capture).read_bytes())
    # the first set-up stands in front
    front = len(records) // 3
    begin, end = measurements_of(records)[0]
    assert begin + 2 < front < end, "it ends in the first measurement"
    seconds = struct.unpack_from("<I", records[-1])[0] - struct.unpack_from("<I", records[0])[0] + 1
    again = [later(renumbered(it), seconds) for it in records]
    variants = {
        "lost": [it for at, it in enumerate(records) if at < front or at % 9],
        "copied": [it for at, it in enumerate(records) for _ in range(1 if at % 5 else 2)],
        "late": records[:front] + exchanged(records[front:], 7),
        "twice": records + again,
        "moved": records + [of_other_master(it) for it in again],
        "middle": records[front:],
    }
    for name, packets in variants.items():
        (pathlib.Path(folder) / f"{name}.pcap").write_bytes(header + b"".join(packets))


if __name__ == "__main__":
    leave_out(*sys.argv[2:]) if sys.argv[1] == "--without" else main(*sys.argv[1:])
