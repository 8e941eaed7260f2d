"""Prints the run file examples/engine/engine.toml: 20 seconds of a small engine. Its memory image has 10 bytes: the speed (UWORD, a
quarter of a revolution per minute a bit), the temperature of the coolant (UBYTE, 40 degrees below zero is 0), the state (UBYTE), a
saw-tooth (UWORD, the most significant byte first) and the throttle (FLOAT32_IEEE, in percent)."""

import struct

HEAD = """\
# 20 seconds of a small engine, which examples/engine/engine.a2l describes: try
#
#   ./xcpdaq --out engine.frames examples/engine/engine.toml
#   ./xcpread --a2l examples/engine/engine.a2l --csv examples/engine/engine.toml engine.frames
#
# Two DAQ lists: speed, state, saw-tooth and throttle every 100 ms, and the temperature of the coolant every second. A tick is a
# millisecond. The transmitter is late twice, so that samples are dropped, and list 0 is stopped from 13 s to 14.5 s.
# Printed by examples/engine/engine.py.

channels = 2
image_len = 10
caps = [4, 2]
stamp_size = 2
setup = ["d6", "d5000200", "d400000001", "d400010001", "d30000000004", "d30001000001",
  "e20000000000", "e1ff020000000000", "e1ff010003000000", "e1ff020004000000", "e1ff040006000000", "e010000000000100",
  "e20001000000", "e1ff010002000000", "e010010001000100",
  "de010000", "de010100"]
steps = ["""


def state(t):
    return 0 if t < 1 else 1 if t < 2 else 3 if 8 <= t < 16 else 2


def speed(t):
    """In revolutions per minute."""
    if t < 1:
        return 0
    if t < 2:
        return 250 + 40 * (t * 10 % 2)
    if 8 <= t < 16:
        rise, fall = min(1, (t - 8) / 3), min(1, max(0, (t - 13) / 3))
        return 800 + 2600 * rise - 2600 * fall
    return 800 + 12 * (int(t * 10) % 5 - 2)


def throttle(t):
    return 0.0 if t < 2 else 62.5 if 8 <= t < 11 else 30.25 if 11 <= t < 13 else 4.5


def image(k):
    t = k / 10
    return (struct.pack("<H", round(4 * speed(t))) + bytes([round(40 + 18 + 62 * (1 - 0.92 ** t)), state(t)])
            + struct.pack(">H", k % 20 * 50) + struct.pack("<f", throttle(t)))


def steps(k):
    """What happens in the k-th tenth of a second."""
    yield f"trigger 0 {100 * k} {image(k).hex()}"
    if k % 10 == 5:
        yield f"trigger 1 {100 * k + 3} {image(k).hex()}"
    if k == 129:
        yield from ["pump", "stop 0 0"]
    if k == 144:
        yield "start 0 0"
    if not (60 <= k < 70 or 110 <= k < 116):
        yield from ["pump", "pump"]


def main():
    print(HEAD + ",\n  ".join(", ".join(f'"{step}"' for step in steps(k)) for k in range(200)) + "]")


if __name__ == "__main__":
    main()
