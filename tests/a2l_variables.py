#!/usr/bin/env python3
"""Reads the measurements of an A2L file (ASAM MCD-2 MC): a reader of its own, beside those of the crate a2l and of
examples/c/a2l_reader.h. IDENTICAL, LINEAR, RAT_FUNC with a linear inverse and TAB_VERB, of numbers with the least significant byte first.

    tests/a2l_variables.py FILE                   prints a line for each: name, type, extension, address, event channel, limits, unit
    tests/a2l_variables.py FILE --beside PROGRAM SECTION=BASE ..
                                                  whether each stands where 'nm' tells of PROGRAM: its place in its linker section, from
                                                  BASE on; prints how many do, and ends with status 1 at the first that doesn't"""

import re
import struct
import subprocess
import sys

WORD = re.compile(r'/\*.*?\*/|//[^\n]*|"(?:[^"\\]|\\.|"")*"|[^\s"]+', re.S)
FORMS = {"UBYTE": "B", "SBYTE": "b", "UWORD": "H", "SWORD": "h", "ULONG": "I", "SLONG": "i", "A_UINT64": "Q", "A_INT64": "q",
         "FLOAT32_IEEE": "f", "FLOAT64_IEEE": "d"}


def plain(word):
    """A text without its quotes."""
    return re.sub(r'\\(.)|"(")', r"\1\2", word[1:-1]) if word[:1] == '"' else word


def blocks_of(words, kind):
    """The words behind the name of each block of a kind, by its name."""
    found = {}
    for at, word in enumerate(words):
        if word == "/begin" and words[at + 1] == kind:
            end = next(it for it in range(at, len(words)) if words[it] == "/end" and words[it + 1] == kind)
            found[plain(words[at + 2])] = words[at + 3:end]
    return found


def behind(words, keyword, count=1):
    """So many words behind a keyword, or none."""
    at = words.index(keyword) + 1 if keyword in words else len(words)
    return words[at:at + count]


class Variable:
    def __init__(self, name, words, methods, tables):
        self.name = name
        self.comment, self.type, method = plain(words[0]), words[1], methods[words[2]]
        self.limits = float(words[5]), float(words[6])
        self.size = struct.calcsize("<" + FORMS[self.type])
        self.address = int(behind(words, "ECU_ADDRESS")[0], 0)
        self.extension = int((behind(words, "ECU_ADDRESS_EXTENSION") or ["0"])[0], 0)
        self.event = int(behind(words, "DEFAULT_EVENT_LIST", 2)[1], 0)
        available = words[words.index("AVAILABLE_EVENT_LIST") + 1:]
        self.events = [int(available[it + 1]) for it in range(0, available.index("/end"), 2)]
        self.unit, self.digits = plain(method[3]), int(method[2].strip('"').split(".")[1])
        self.linear = [float(it) for it in behind(method, "COEFFS_LINEAR", 2)]
        self.rational = [float(it) for it in behind(method, "COEFFS", 6)]
        table = tables[behind(method, "COMPU_TAB_REF")[0]][3:] if "COMPU_TAB_REF" in method else []
        self.texts = {int(table[it]): plain(table[it + 1]) for it in range(0, len(table), 2)}

    def cell(self, data):
        """What examples/c/xcp_master.c prints of these bytes."""
        raw, = struct.unpack("<" + FORMS[self.type], data)
        if raw in self.texts:
            return self.texts[raw]
        if self.linear:
            raw = self.linear[0] * raw + self.linear[1]
        if self.rational:
            raw = (self.rational[5] * raw - self.rational[2]) / self.rational[1]
        return f"{raw:.{self.digits}f}"


def variables_of(path):
    """The measurements of a file, in its order."""
    with open(path, encoding="utf-8") as file:
        words = [it for it in WORD.findall(re.sub(r"/begin\s+A2ML.*?/end\s+A2ML", "", file.read(), flags=re.S))
                 if not it.startswith(("/*", "//"))]
    methods, tables = blocks_of(words, "COMPU_METHOD"), blocks_of(words, "COMPU_VTAB")
    return [Variable(name, of, methods, tables) for name, of in blocks_of(words, "MEASUREMENT").items()]


def look_beside(variables, program, sections):
    listed = subprocess.run(["nm", program], capture_output=True, text=True, check=True).stdout
    symbols = {line.split()[-1]: int(line.split()[0], 16) for line in listed.splitlines() if len(line.split()) == 3}
    for variable in variables:
        places = {int(base, 0) + symbols[variable.name] - symbols[f"__start_{section}"]
                  for section, base in (it.split("=") for it in sections)
                  if symbols[f"__start_{section}"] <= symbols[variable.name] < symbols[f"__stop_{section}"]}
        if places != {variable.address}:
            sys.exit(f"{variable.name} is at {variable.address:#x}, where {places} is wanted")
    print(len(variables))


def main(path, *words):
    variables = variables_of(path)
    if words:
        look_beside(variables, words[1], words[2:])
        return
    for it in variables:
        print(it.name, it.type, it.extension, f"{it.address:08X}", it.event, *(f"{limit:g}" for limit in it.limits), it.unit)


if __name__ == "__main__":
    main(*sys.argv[1:])
