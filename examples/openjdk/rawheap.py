"""Reads a copy of HotSpot's heap, as agent.c wrote it: its spaces, the classes, the objects, and their fields."""

import array
import collections
import struct

MAGIC = 0x31504145484D564A
REFERENCE, FINAL = "java/lang/ref/Reference", "java/lang/ref/FinalReference"

Space = collections.namedtuple("Space", "name bottom words")
# Kinds: instance, mirror (an object of java.lang.Class), objects and data (arrays). An array's first element is `base`
# bytes after its start, and an element has 2^log bytes.
Klass = collections.namedtuple("Klass", "name kind size base log fields")
Object = collections.namedtuple("Object", "address space at size klass")
# Word numbers within an object. Own words are those that the collector writes itself; they are among the others too.
Fields = collections.namedtuple("Fields", "references weak data own")

NO_FIELDS = Fields([], [], [], [])


class Cursor:
    def __init__(self, path):
        with open(path, "rb") as f:
            self.data, self.at = f.read(), 0

    def take(self, count):
        self.at += count
        return self.data[self.at - count:self.at]

    def words(self, count):
        return array.array("Q", self.take(8 * count))

    def word(self):
        return self.words(1)[0]


class Copy:
    """A copy of the heap. Roots: what the slots hold."""

    def __init__(self, path):
        c = Cursor(path)
        assert c.word() == MAGIC, path
        self.hash_shift, self.mirror_size_at, self.static_count_at = c.words(3)
        self.referent_at, self.discovered_at, self.clock_at, self.clock_mirror = c.words(4)
        self.spaces = [read_space(c) for _ in range(c.word())]
        self.roots = c.words(c.word())
        raw = dict(read_klass(c) for _ in range(c.word()))
        assert c.word() == MAGIC, path
        self.klasses = {address: self.klass(address, raw) for address in raw}

    def klass(self, address, raw):
        name, layout, _, blocks = raw[address]
        if layout < 0:
            kind = "objects" if layout >> 30 & 3 == 2 else "data"
            return Klass(name, kind, 0, layout >> 16 & 0xFF, layout & 0xFF, NO_FIELDS)
        references = [(offset + 8 * i) // 8 for offset, count in blocks for i in range(count)]
        kind, size = "mirror" if name == "java/lang/Class" else "instance", layout // 8
        supers = superclasses(address, raw)
        weak, own = [], []
        if REFERENCE in supers:  # the VM keeps these two out of the blocks
            own = [self.discovered_at // 8]
            if FINAL not in supers:  # else it keeps its referent
                weak = [self.referent_at // 8]
            references = sorted(set(references + own + [self.referent_at // 8]) - set(weak))
        return Klass(name, kind, size, 0, 0, fields_of(size, references, weak, own))

    def objects(self):
        """All objects, space by space. Each space must be a row of objects without gaps."""
        for space in self.spaces:
            at, words = 0, space.words
            while at < len(words):
                klass = self.klasses[words[at + 1]]
                size = self.size(words, at, klass)
                yield Object(space.bottom + 8 * at, space, at, size, klass)
                at += size
            assert at == len(words), space.name

    def size(self, words, at, klass):
        if klass.kind == "instance":
            return klass.size
        if klass.kind == "mirror":
            return half(words, at, self.mirror_size_at)
        return ((half(words, at, 16) << klass.log) + klass.base + 7) // 8

    def fields(self, o):
        if o.klass.kind == "instance":
            return o.klass.fields
        if o.klass.kind == "objects":
            return fields_of(o.size, range(o.klass.base // 8, o.size))
        if o.klass.kind == "data":
            return fields_of(o.size, [])
        # After a mirror's own fields the static references of its class stand, and then the static data.
        count = half(o.space.words, o.at, self.static_count_at)
        statics = range(o.klass.size, o.klass.size + count)
        own = [self.clock_at // 8] if o.address == self.clock_mirror else []
        return fields_of(o.size, [*o.klass.fields.references, *statics], [], own)

    def identity(self, o):
        """What a collector keeps of a mark word: the hash, or if the object is locked the lock. Never the age."""
        mark = o.space.words[o.at]
        return mark >> self.hash_shift & 0x7FFFFFFF if mark & 3 == 1 else mark


def half(words, at, offset):
    """Four bytes, at so many bytes after a word."""
    return words[at + offset // 8] >> 8 * (offset % 8) & 0xFFFFFFFF


def fields_of(size, references, weak=(), own=()):
    """Word 0 is the mark word, and what is neither a reference nor weak is data."""
    used = {*references, *weak}
    data = [i for i in range(1, size) if i not in used] if used else range(1, size)
    return Fields(references, weak, data, own)


def superclasses(address, raw):
    names = set()
    while address in raw:
        names.add(raw[address][0])
        address = raw[address][2]
    return names


def read_space(c):
    name = c.take(16).rstrip(b"\0").decode()
    bottom, top = c.words(2)
    return Space(name, bottom, c.words((top - bottom) // 8))


def read_klass(c):
    address, layout, parent, blocks = c.words(4)
    blocks = [(block & 0xFFFFFFFF, block >> 32) for block in c.words(blocks)]
    name = c.take(c.word()).decode()
    layout = struct.unpack("<q", struct.pack("<Q", layout))[0]
    return address, (name, layout, parent, blocks)
