#!/usr/bin/env python3
"""Writes a capture of so many bytes to a file: a master sets one DAQ list up, and its slave sends packets of 1,400 bytes.

    bench/capture.py FILE BYTES
"""

import struct
import sys

SLAVE, MASTER = (bytes([192, 168, 0, 2]), 5555), (bytes([192, 168, 0, 1]), 40000)
# seven entries of 199 bytes, and four bytes of head: identification field of a word, and a fill byte
ENTRIES = [(0x1000 + 199 * i, 199) for i in range(7)] + [(0x2000, 3)]


def record(number, sender, receiver, frame):
    udp = struct.pack(">4H", sender[1], receiver[1], 8 + len(frame), 0) + frame
    ip = struct.pack(">BBHHHBBH4s4s", 0x45, 0, 20 + len(udp), 0, 0, 64, 17, 0, sender[0], receiver[0]) + udp
    return struct.pack("<4I", number // 1000, number % 1000 * 1000, len(ip), len(ip)) + ip


def frame(counter, packet):
    return struct.pack("<HH", len(packet), counter & 0xFFFF) + packet


def exchanges():
    """The commands, and their replies."""
    yield b"\xff\x00", bytes.fromhex("ff 04 00 ff 78 05 01 01")
    yield b"\xda", bytes.fromhex("ff 11 01 00 01 00 00 c0")
    yield b"\xd9", bytes.fromhex("ff 01 ff 01 ff 00 00 00")
    yield b"\xd6", b"\xff"
    yield b"\xd5\x00\x01\x00", b"\xff"
    yield b"\xd4\x00\x00\x00\x01", b"\xff"
    yield b"\xd3\x00\x00\x00\x00" + bytes([len(ENTRIES)]), b"\xff"
    yield b"\xe2\x00\x00\x00\x00\x00", b"\xff"
    for address, size in ENTRIES:
        yield b"\xe1\xff" + bytes([size, 0]) + struct.pack("<I", address), b"\xff"
    yield b"\xe0\x00\x00\x00\x00\x00\x01\x00", b"\xff"
    yield b"\xde\x01\x00\x00", b"\xff\x00"


def main(path, size):
    with open(path, "wb") as out:
        out.write(struct.pack("<IHHiIII", 0xA1B2C3D4, 2, 4, 0, 0, 65535, 101))
        counter = 0
        for command, reply in exchanges():
            out.write(record(counter, MASTER, SLAVE, frame(counter, command)))
            out.write(record(counter, SLAVE, MASTER, frame(counter, reply)))
            counter += 1
        body = bytes(range(256)) * 6
        while out.tell() < size:
            packet = b"\x00\x00\x00\x00" + body[counter % 100 :][:1396]
            out.write(record(counter, SLAVE, MASTER, frame(counter, packet)))
            counter += 1


if __name__ == "__main__":
    main(sys.argv[1], int(sys.argv[2]))
