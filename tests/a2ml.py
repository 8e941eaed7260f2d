#!/usr/bin/env python3
"""Reads the A2ML of an A2L file, and each IF_DATA of the file by it (ASAM MCD-2 MC, A2ML): a reader of its own, beside that of the
crate a2l, which passes over A2ML.

    tests/a2ml.py FILE      prints how many IF_DATA are as the A2ML says; ends with status 1 at the first thing that isn't
"""

import re
import sys

WORD = re.compile(r'/\*.*?\*/|//[^\n]*|"(?:[^"\\]|\\.)*"|/begin|/end|[A-Za-z_][\w.]*|[-+]?[\w.]+|[][(){};=,*]', re.S)
BYTES = {"char": (-128, 127), "uchar": (0, 255), "int": (-32768, 32767), "uint": (0, 65535), "ulong": (0, 2**32 - 1)}


def words_of(text):
    gaps = WORD.sub("", text).strip()
    if gaps:
        sys.exit(f"no word: {gaps[:40]!r}")
    return [it for it in WORD.findall(text) if not it.startswith(("/*", "//"))]


class Words:
    def __init__(self, words):
        self.words, self.at = words, 0

    def now(self):
        return self.words[self.at] if self.at < len(self.words) else ""

    def take(self, *wanted):
        word = self.now()
        if wanted and word not in wanted:
            sys.exit(f"{word!r} where {' or '.join(wanted)} is wanted, behind: {' '.join(self.words[max(0, self.at - 12):self.at])}")
        self.at += 1
        return word

    def has(self, word):
        if self.now() != word:
            return False
        self.at += 1
        return True


class Grammar:
    """Types are pairs: a kind and what it has; tags are triples: whether a block, whether any number of times, the type or None."""

    def __init__(self, text):
        self.named, self.words, self.top = {}, Words(words_of(text)), None
        while self.words.now():
            if self.words.has("block"):
                name = self.words.take().strip('"')
                self.top = name, self.type()
            else:
                self.type()
            self.words.take(";")

    def type(self):
        words, kind = self.words, self.words.take()
        if kind in BYTES:
            size = None
            if words.has("["):
                size = int(words.take(), 0)
                words.take("]")
            return kind, size
        name = "" if words.now() == "{" else words.take()
        if not words.has("{"):
            return self.named[kind, name]
        found = {"enum": self.names, "struct": self.members, "taggedstruct": self.tags, "taggedunion": self.tags}[kind]()
        words.take("}")
        self.named[kind, name] = kind, found
        return kind, found

    def names(self):
        found = set()
        while not found or self.words.has(","):
            found.add(self.words.take().strip('"'))
            self.words.take("=")
            int(self.words.take(), 0)
        return found

    def members(self):
        found = []
        while self.words.now() != "}":
            found.append(self.type())
            self.words.take(";")
        return found

    def tags(self):
        found, words = {}, self.words
        while words.now() != "}":
            many = words.has("(")
            block = words.has("block")
            tag = words.take().strip('"')
            kind = None if words.now() in (";", ")") else self.type()
            if many:
                words.take(")")
                words.take("*")
            words.take(";")
            found[tag] = block, many, kind
        return found


def follow(words, kind, has):
    """Takes the words of one value of a type."""
    if kind in BYTES and has is None:
        low, high = BYTES[kind]
        if not low <= int(words.take(), 0) <= high:
            sys.exit(f"out of the limits of {kind}: {words.words[words.at - 1]}")
    elif kind in BYTES:
        word = words.take()
        if word[:1] != '"' or len(word) - 2 > has:
            sys.exit(f"no text of at most {has} bytes: {word}")
    elif kind == "enum":
        words.take(*sorted(has))
    elif kind == "struct":
        for it in has:
            follow(words, *it)
    else:
        seen = []
        while not (kind == "taggedunion" and seen):
            block = words.now() == "/begin"
            tag = words.words[words.at + block] if words.at + block < len(words.words) else ""
            if tag not in has or has[tag][0] != block:
                break
            if tag in seen and not has[tag][1]:
                sys.exit(f"{tag} twice")
            words.at += 1 + block
            if has[tag][2]:
                follow(words, *has[tag][2])
            if block:
                words.take("/end")
                words.take(tag)
            seen.append(tag)


def main(name):
    with open(name, encoding="iso-8859-1") as file:
        text = file.read()
    a2ml = re.compile(r"/begin\s+A2ML(.*?)/end\s+A2ML", re.S)
    parts = a2ml.findall(text)
    if len(parts) != 1:
        sys.exit(f"{len(parts)} blocks of A2ML")
    tag, top = Grammar(parts[0]).top
    words, many = Words(words_of(a2ml.sub(" ", text))), 0
    for at, word in enumerate(words.words):
        if word == tag and words.words[at - 1] == "/begin":
            words.at, many = at + 1, many + 1
            follow(words, *top)
            words.take("/end")
            words.take(tag)
    print(f"{many} {tag}")


if __name__ == "__main__":
    main(*sys.argv[1:])
