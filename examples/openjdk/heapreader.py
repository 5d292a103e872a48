"""Reads heap images, dumps, words and moved heaps. It believes that they are whole."""

import array
import collections
import struct

PAGE = 64
Heap = collections.namedtuple("Heap", "edition words marks roots")
Moved = collections.namedtuple("Moved", "edition places roots words")
Dump = collections.namedtuple("Dump", "edition fresh pages roots builds live")  # a page: None or (words, entries)


class File:
    def __init__(self, path):
        self.data, self.at = open(path, "rb").read(), 0
        self.magic = self.take("8s")[0]

    def take(self, form):
        self.at += struct.calcsize("<" + form)
        return struct.unpack_from("<" + form, self.data, self.at - struct.calcsize("<" + form))

    def row(self, kind, count):
        self.at += count * (8 if kind == "Q" else 4)
        return array.array(kind, self.data[self.at - count * (8 if kind == "Q" else 4):self.at])


def read_image(path):
    f = File(path)
    edition, words, marks, roots = f.take("IIII")
    return Heap(edition, f.row("Q", words), f.row("I", marks), f.row("Q", roots))


def read_left(path):
    f = File(path)
    if f.magic == b"COMPMOVE":
        edition, places, roots, words = f.take("IIII")
        return Moved(edition, f.row("I", places), f.row("Q", roots), f.row("Q", words))
    if f.magic == b"COMPWORD":
        edition, live, count = f.take("III")
        roots, words = f.row("Q", count), f.row("Q", live)
        words.extend([0] * (-live % PAGE))
        pages = [(words[i:i + PAGE], []) for i in range(0, len(words), PAGE)]
        return Dump(edition, 0, pages, roots, [range(len(pages))], live)
    edition, mutators, fresh, count, roots = f.take("IIIII")
    roots = f.row("Q", roots)
    pages = [read_page(f) for _ in range(count)]
    return Dump(edition, fresh, pages, roots, [f.row("I", *f.take("I")) for _ in range(mutators)], *f.take("Q"))


def read_page(f):
    if f.take("B") == (0,):
        return None
    return f.row("Q", PAGE), [f.take("QBBBQ") for _ in range(*f.take("I"))]


def counts(edition, h):
    """References, weak words and data words of a header."""
    form = h >> 62 if edition == 3 else 0
    if form == 0:
        return h & 0xFFFF, h >> 32 & 0xFFFF if edition > 1 else 0, h >> 16 & 0xFFFF
    many, few = h & 0x7FFFFFFF, h >> 31 & 0x1FFFF
    return {1: (many, 0, few), 2: (few, 0, many), 3: (0, many, few)}[form]


def size(edition, h):
    return 1 + sum(counts(edition, h))
