"""Random A2L files (ASAM MCD-2 MC) with random recordings that they describe, always the same ones: Case(SEED) has both. Each measurement
lies in an entry of some DAQ list, so all are shown; each type, byte order, mask, operation and conversion is drawn, and names that double.

    case = Case(7)
    case.write(RECORDER, FOLDER)      writes case.a2l_path, case.run and case.frames
    case.columns                      what is shown, in the order of the file, each element of an array on its own"""

import random
import struct
import subprocess

SIZES = {"UBYTE": 1, "SBYTE": 1, "UWORD": 2, "SWORD": 2, "ULONG": 4, "SLONG": 4, "A_UINT64": 8, "A_INT64": 8,
         "FLOAT16_IEEE": 2, "FLOAT32_IEEE": 4, "FLOAT64_IEEE": 8}
FLOATS = {"FLOAT16_IEEE": "e", "FLOAT32_IEEE": "f", "FLOAT64_IEEE": "d"}
NAMES = ["t", "t", "overload", "ticks", "t_2", "x", "x", "x", "v", "v", "v[0]", "Speed.of.shaft", "speed", "_9", "index", "time"]
UNITS = ["", "", "V", "1/min", "%", "°C", "m/s", "a [b]", "<&>"]
TEXTS = ["off", "on", "high, by far", "ä", "<on>", 'a "b"', "12", "-0.5", "NaN", " two words ", "a\nb", "&amp;"]
IDENTIFIERS = ["", "", "Speed of the shaft", "a < b & c > d", 'It says "go"', "Öl", "]]>", "two\nlines"]
NUMBERS = [0, 1, 2, 3, 5, 9, 10, 100, 255, -1, -2, 127, -128, 2**31, 2**53 + 1, 2**63, -2**63, 2**64 - 1]
REALS = [0.0, -0.0, 0.1, 0.5, -1.5, 1.0, 2.0, 3.0, 1e5, 1e-7, 1e300, -1e200, 5e-324, 16777217.0, float("inf"), float("-inf"), float("nan")]
TICKS = ["", "", "1 SIZE_WORD UNIT_1US", "5 SIZE_DWORD UNIT_100NS", "25 SIZE_WORD UNIT_10MS", "3 SIZE_BYTE UNIT_1S"]
TICK_WORDS = [[], [], [], ["--tick", "0.001"], ["--tick", "12.5e-9"]]
TABLES = ["rows", "rows", "ranges", "ranges", "crossing", "empty"]
FIELDS = ["absolute", "byte", "word"]


def quoted(text):
    doubled = text.replace('"', '""')
    return f'"{doubled}"'


def said(value):
    return str(value).replace("e+", "e")


class List:
    """A DAQ list: its ODTs, each with entries of an address and a size."""

    def __init__(self, draw, number, image, channels):
        self.number, self.event, self.stamped = number, draw.randrange(channels), draw.random() < 0.8
        self.odts = [[self.entry(draw, image) for _ in range(draw.randint(1, 3))] for _ in range(draw.randint(1, 3))]

    def entry(self, draw, image):
        size = draw.choice([1, 2, 4, 8, 8, 12, 18])
        return draw.randrange(image - size + 1), size

    def entries(self):
        return [it for odt in self.odts for it in odt]


class Table:
    """The texts of raw values: rows of a least number, a greatest one and a text."""

    def __init__(self, draw, name):
        self.name, kind = name, draw.choice(TABLES)
        self.default = draw.choice([None, None, "?", "other"])
        self.rows = []
        low = draw.choice([-3, 0, 0, 0.5])
        for _ in range(draw.randint(0 if kind == "empty" else 1, 6)):
            high = low if kind == "rows" else low + draw.choice([0, 0, 1, 2.5, 9])
            self.rows.append((low, high, draw.choice(TEXTS)))
            low = high + draw.choice([1, 1, 2, 0.25] if kind != "crossing" else [-9, -2, 0, 1])
        self.single = kind == "rows" and all(low == high for low, high, _ in self.rows)
        if draw.random() < 0.3:
            draw.shuffle(self.rows)

    def text(self):
        kind = "COMPU_VTAB" if self.single else "COMPU_VTAB_RANGE"
        rows = " ".join(f"{low} {quoted(text)}" if self.single else f"{low} {high} {quoted(text)}" for low, high, text in self.rows)
        default = "" if self.default is None else f" DEFAULT_VALUE {quoted(self.default)}"
        return f'/begin {kind} {self.name} "" {"TAB_VERB " * self.single}{len(self.rows)} {rows}{default} /end {kind}'

    def cell(self, raw):
        """The text of a raw value, or None."""
        return next((text for low, high, text in self.rows if low <= float(raw) <= high), self.default)

    def may_be_lost(self, whole):
        """MDF has no ranges that cross, and of numbers that aren't whole no ranges with their greatest number."""
        crossing = any(s[0] <= r[1] and r[0] <= s[1] and not (r[0] <= s[0] and s[1] <= r[1])
                       for at, r in enumerate(self.rows) for s in self.rows[at + 1:])
        return crossing or not whole and any(low != high for low, high, _ in self.rows)


class Method:
    """A COMPU_METHOD: a kind of its own, with numbers or a table."""

    def __init__(self, draw, number, tables):
        self.name, self.unit = f"method_{number}", draw.choice(UNITS)
        self.kind = draw.choice(["IDENTICAL", "LINEAR", "LINEAR", "RAT_FUNC", "RAT_FUNC", "CURVED", "FORM", "TAB_VERB", "TAB_VERB",
                                 "TAB_VERB"])
        self.table = draw.choice(tables) if self.kind == "TAB_VERB" else None
        self.numbers = [draw.choice([1.0, 0.5, 0.1, -2.0, 1e-3, 3e7]), draw.choice([0.0, -40.0, 0.3, 1e9, -0.125]),
                        draw.choice([1.0, 4.0, -0.7])]

    def text(self):
        a, b, c = map(said, self.numbers)
        rule = {"IDENTICAL": "IDENTICAL {}", "LINEAR": f"LINEAR {{}} COEFFS_LINEAR {a} {b}", "FORM": 'FORM {} FORMULA "X1"',
                "RAT_FUNC": f"RAT_FUNC {{}} COEFFS 0 {a} {b} 0 0 {c}", "CURVED": f"RAT_FUNC {{}} COEFFS 1 {a} {b} 0 {c} 1",
                "TAB_VERB": f"TAB_VERB {{}} COMPU_TAB_REF {self.table and self.table.name}"}[self.kind]
        if self.kind == "FORM":
            rule = rule.replace('FORMULA "X1"', '/begin FORMULA "X1" /end FORMULA')
        rule = rule.format(f'"%8.3" {quoted(self.unit)}')
        return f'/begin COMPU_METHOD {self.name} "" {rule} /end COMPU_METHOD'

    @property
    def shown_unit(self):
        return "raw" if self.kind in ("CURVED", "FORM") else self.unit


class Measurement:
    def __init__(self, draw, number, lists, methods):
        every = [it for each in lists for it in each.entries()]
        self.type = draw.choice([it for it in SIZES if SIZES[it] <= max(room for _, room in every)])
        size = SIZES[self.type]
        self.name = draw.choice(NAMES) if draw.random() < 0.4 else f"m_{number}"
        self.dims, self.columns_first = [], draw.random() < 0.3
        place, room = draw.choice([it for it in every if it[1] >= size])
        if room >= 2 * size and draw.random() < 0.3:
            self.dims = [room // size] if room // size != 4 or draw.random() < 0.5 else [2, 2]
        self.address = place if self.dims else draw.randint(place, place + room - size)
        self.method = draw.choice([None, *methods])
        self.order = draw.choice([None, "MSB_LAST", "MSB_FIRST"])
        self.mask = self.drawn_mask(draw, 8 * size) if draw.random() < 0.4 else None
        self.operation = self.drawn_operation(draw) if draw.random() < 0.25 else None
        self.phys_unit = draw.choice(UNITS) if draw.random() < 0.3 else None
        self.identifier = draw.choice(IDENTIFIERS)
        self.limits = draw.choice([(0, 0), (0, 1), (-40, 215), (-1.5, 2048.25), (0, 18446744073709551615), (-1e300, 1e300)])

    def drawn_mask(self, draw, bits):
        if draw.random() < 0.6:
            count = draw.randint(1, bits)
            return ((1 << count) - 1) << draw.randint(0, bits - count)
        return draw.choice([0x5A, 0x81, 0x8001, 0xF0F0, 0xFFFFFFFF, draw.getrandbits(bits) or 1])

    def drawn_operation(self, draw):
        words = [f"{side}_SHIFT {draw.choice([0, 1, 3, 4, 8, 20, 63])}" for side in ("LEFT", "RIGHT") if draw.random() < 0.5]
        return words + ["SIGN_EXTEND"] * (draw.random() < 0.5)

    @property
    def unit(self):
        method_unit = self.method.shown_unit if self.method else ""
        raw = self.method is not None and self.method.shown_unit == "raw"
        return self.phys_unit if self.phys_unit is not None and not raw else method_unit

    @property
    def whole(self):
        return self.type not in FLOATS

    def text(self):
        options = [f"ECU_ADDRESS 0x{self.address:X}"]
        if self.dims:
            options += [f"MATRIX_DIM {' '.join(map(str, self.dims))}" if len(self.dims) > 1 or self.columns_first
                        else f"ARRAY_SIZE {self.dims[0]}"]
            options += ["LAYOUT COLUMN_DIR"] * self.columns_first
        options += [f"BYTE_ORDER {self.order}"] if self.order else []
        options += [f"BIT_MASK 0x{self.mask:X}"] if self.mask else []
        if self.operation is not None:
            options += [f"/begin BIT_OPERATION {' '.join(self.operation)} /end BIT_OPERATION"]
        options += [f"PHYS_UNIT {quoted(self.phys_unit)}"] if self.phys_unit is not None else []
        method = self.method.name if self.method else "NO_COMPU_METHOD"
        return (f"/begin MEASUREMENT {self.name} {quoted(self.identifier)} {self.type} {method} 0 0 "
                f"{' '.join(map(said, self.limits))}\n  "
                f"{' '.join(options)} /end MEASUREMENT")

    def elements(self):
        """The name and the address of each, as they are shown."""
        size = SIZES[self.type]
        if not self.dims:
            return [(self.name, self.address)]
        if len(self.dims) == 1:
            return [(f"{self.name}[{x}]", self.address + size * x) for x in range(self.dims[0])]
        first, second = self.dims
        if self.columns_first:
            return [(f"{self.name}[{x}][{y}]", self.address + size * (x * second + y)) for x in range(first) for y in range(second)]
        return [(f"{self.name}[{x}][{y}]", self.address + size * (y * first + x)) for y in range(second) for x in range(first)]

    def put(self, draw, image, order, address):
        """Gives its bytes a value that means something."""
        size = SIZES[self.type]
        if not self.whole and draw.random() < 0.8:
            number = draw.choice(REALS + [draw.gauss(0, 100), float(draw.randint(-5, 9))])
            try:
                data = struct.pack("<" + FLOATS[self.type], number)
            except OverflowError:
                data = struct.pack("<" + FLOATS[self.type], 1.0)
        else:
            shift = draw.choice([0, 0, 4, 8]) if self.mask or self.operation else 0
            data = (draw.choice(NUMBERS + [draw.randint(0, 9)]) << shift) % (1 << 8 * size)
            data = data.to_bytes(size, "little")
        image[address:address + size] = data if order == "MSB_LAST" else data[::-1]


class Column:
    """What stands in a column of the CSV."""

    def __init__(self, measurement, name, address):
        self.measurement, self.name, self.address = measurement, name, address
        self.unit, self.comment, self.limits = measurement.unit, measurement.identifier, measurement.limits
        self.table = measurement.method.table if measurement.method else None
        self.size, self.whole = SIZES[measurement.type], measurement.whole


class Case:
    def __init__(self, seed):
        self.seed, self.draw = seed, random.Random(seed)
        draw = self.draw
        self.image, self.channels = draw.choice([24, 40, 100]), draw.randint(1, 3)
        self.field, self.stamp = draw.choice(FIELDS), draw.choice([1, 2, 4])
        self.lists = [List(draw, number, self.image, self.channels) for number in range(draw.randint(1, 4))]
        self.order, self.tick, self.words = draw.choice(["MSB_LAST", "MSB_FIRST"]), draw.choice(TICKS), draw.choice(TICK_WORDS)
        self.tables = [Table(draw, f"table_{number}") for number in range(6)]
        self.methods = [Method(draw, number, self.tables) for number in range(10)]
        self.measurements = [Measurement(draw, number, self.lists, self.methods) for number in range(draw.randint(4, 14))]
        # of two called t the second is t_2 in a file, and what another one of this name would be isn't said
        if [it.name for it in self.measurements].count("t") > 1:
            self.measurements = [it for it in self.measurements if it.name != "t_2"]
        self.columns = [Column(it, *place) for it in self.measurements for place in it.elements()]
        self.samples = self.drawn_samples()
        self.breaks_off = draw.random() < 0.1 and len(self.samples) > 1

    def drawn_samples(self):
        """Samples in their order: the list, the ticks, whether it is marked, and the memory then."""
        draw, now, samples = self.draw, self.draw.choice([0, 7, 200]), []
        for _ in range(draw.choice([1, 5, 30])):
            image = bytearray(draw.randbytes(self.image))
            for column in self.columns:
                if draw.random() < 0.8:
                    column.measurement.put(draw, image, column.measurement.order or self.order, column.address)
            samples.append((draw.choice(self.lists), now, draw.random() < 0.2, bytes(image)))
            now += draw.choice([0, 1, 3, 40])
        return samples

    def a2l(self):
        tick = self.tick and ("/begin IF_DATA XCP /begin DAQ DYNAMIC /begin TIMESTAMP_SUPPORTED "
                              f"{self.tick} /end TIMESTAMP_SUPPORTED /end DAQ /end IF_DATA")
        common = f'/begin MOD_COMMON "" BYTE_ORDER {self.order} /end MOD_COMMON' if self.order == "MSB_FIRST" or self.seed % 2 else ""
        blocks = [common, tick, *(it.text() for it in [*self.measurements, *self.methods, *self.tables])]
        text = "\n".join(['/begin PROJECT p "" /begin MODULE m ""', *blocks, "/end MODULE /end PROJECT", ""])
        return text.encode("utf-8" if self.seed % 3 else "latin-1")

    def setup(self):
        """The packets that set the lists up."""
        def word(number):
            return struct.pack("<H", number).hex()
        packets = ["d6", f"d500{word(len(self.lists))}"]
        packets += [f"d400{word(it.number)}{len(it.odts):02x}" for it in self.lists]
        packets += [f"d300{word(it.number)}{odt:02x}{len(entries):02x}" for it in self.lists for odt, entries in enumerate(it.odts)]
        for it in self.lists:
            for odt, entries in enumerate(it.odts):
                packets += [f"e200{word(it.number)}{odt:02x}00"]
                packets += [f"e1ff{size:02x}00{struct.pack('<I', address).hex()}" for address, size in entries]
            packets += [f"e0{0x10 * it.stamped:02x}{word(it.number)}{word(it.event)}0100"]
        return packets + [f"de01{word(it.number)}" for it in self.lists]

    def packets(self, of, ticks, marked, image):
        """The packets of a sample."""
        before = sum(len(it.odts) for it in self.lists[:of.number]) if self.field == "absolute" else 0
        behind = {"absolute": b"", "byte": bytes([of.number]), "word": struct.pack("<H", of.number)}[self.field]
        for odt, entries in enumerate(of.odts):
            stamp = ticks.to_bytes(4, "little")[:self.stamp] if of.stamped and odt == 0 else b""
            data = b"".join(image[at:at + size] for at, size in entries)
            yield bytes([before + odt + 128 * (marked and odt == 0)]) + behind + stamp + data

    def write(self, recorder, folder):
        self.a2l_path, self.run, self.frames = (f"{folder}/case_{self.seed}{it}" for it in (".a2l", ".toml", ""))
        with open(self.a2l_path, "wb") as file:
            file.write(self.a2l())
        setup = self.setup()
        with open(self.run, "w", encoding="ascii") as file:
            packets = ", ".join(f'"{packet}"' for packet in setup)
            file.write(f'channels = {self.channels}\nimage_len = {self.image}\ncaps = {[4] * self.channels}\nid = "{self.field}"\n'
                       f"stamp_size = {self.stamp}\nsetup = [{packets}]\nsteps = []\n")
        subprocess.run([recorder, "--out", self.frames, self.run], capture_output=True, timeout=60)
        packets = [it for sample in self.samples for it in self.packets(*sample)]
        frames = b"".join(struct.pack("<HH", len(it), len(setup) + at) + it for at, it in enumerate(packets))
        with open(self.frames, "ab") as file:
            file.write(frames[:-1] if self.breaks_off else frames)
