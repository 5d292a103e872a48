"""Changes a copy after a collection, as a wrong collector would have left it. Each call answers in words what it did,
or None if the heap has nothing of that kind."""

import array
import collections
import itertools


class Broken:
    """A copy that is to be broken, and what stood before the collection."""

    def __init__(self, before, copy):
        self.before, self.copy = before, copy
        self.rows = list(copy.objects())
        self.old_address = dict(zip(before.identities, (o.address for o in before.objects)))
        self.at = {o.address: o for o in self.rows}
        middle = len(self.rows) // 2
        self.later = [o for o in self.rows[middle:] if self.moved(o.address)]
        self.slots = [(o, i) for o in self.rows for i in copy.fields(o).references if o.space.words[o.at + i]
                      and i not in copy.fields(o).own]
        self.leading = collections.defaultdict(list)  # the slots that lead to an address
        for o, i in self.slots:
            self.leading[o.space.words[o.at + i]].append((o, i))

    def was(self, o):
        """Where the object stood before, or None if it is no object of before, but a filler."""
        return self.old_address.get(self.copy.identity(o))

    def moved(self, address):
        """The object at that address, if it moved."""
        o = self.at.get(address)
        return o if o and self.was(o) not in (None, address) else None

    def rename(self, new):
        """All references, weak words and roots that lead to the key lead to the value."""
        for o in self.rows:
            fields = self.copy.fields(o)
            for i in itertools.chain(fields.references, fields.weak):
                o.space.words[o.at + i] = new.get(o.space.words[o.at + i], o.space.words[o.at + i])
        self.copy.roots = array.array("Q", [new.get(root, root) for root in self.copy.roots])

    def shift(self, start, words):
        """Renames all objects of that space from that object on by so many words."""
        self.rename({o.address: o.address + 8 * words for o in self.rows
                     if o.space is start.space and o.address >= start.address})

    def same_class(self, o):
        return next((p for p in self.later if p.address > o.address and p.klass is o.klass and p.size == o.size), None)


def swap(b):
    """Two neighbours of different length change places, and all that leads to them follows."""
    for o in b.later:
        p = b.moved(o.address + 8 * o.size)
        if p and p.size != o.size:
            b.rename({o.address: o.address + 8 * p.size, p.address: o.address})
            w, a, m, e = o.space.words, o.at, p.at, p.at + p.size
            w[a:e] = w[m:e] + w[a:m]
            return "two neighbours change places, references follow"


def twins(b):
    """Two objects of one class and length change places, and all that leads to them follows."""
    for o in b.later:
        p = b.same_class(o)
        if p:
            b.rename({o.address: p.address, p.address: o.address})
            first, second = o.space.words[o.at:o.at + o.size], p.space.words[p.at:p.at + p.size]
            o.space.words[o.at:o.at + o.size], p.space.words[p.at:p.at + p.size] = second, first
            return "two objects of one class change places, references follow"


def stale(b):
    for o, i in b.slots[len(b.slots) // 2:]:
        target = b.moved(o.space.words[o.at + i])
        if target and b.was(o):
            o.space.words[o.at + i] = b.was(target)
            return "a reference is not forwarded"


def card(b):
    """As if the card table, or a remembered set, had missed a word."""
    for o, i in b.slots:
        target = b.moved(o.space.words[o.at + i])
        if target and b.was(o) == o.address:
            o.space.words[o.at + i] = b.was(target)
            return "a reference in an object that stays is not forwarded"


def other(b):
    o, i = b.slots[len(b.slots) // 2]
    o.space.words[o.at + i] = next(p.address for p in b.later if p.address != o.space.words[o.at + i])
    return "a reference leads to another live object"


def data(b):
    for o in b.later:
        inner = [i for i in b.copy.fields(o).data if i > 2]
        if inner and o.klass.kind != "mirror":
            o.space.words[o.at + inner[-1]] ^= 1 << 17
            return "one bit of a data word is wrong"


def root(b):
    for k in reversed(range(len(b.copy.roots))):
        target = b.moved(b.copy.roots[k])
        if target:
            b.copy.roots[k] = b.was(target)
            return "a root is not forwarded"


def weak(b):
    for o in b.rows:
        for i in b.copy.fields(o).weak:
            if o.space.words[o.at + i] == 0 and b.was(o):
                o.space.words[o.at + i] = b.later[0].address
                return "a weak word that was cleared leads to a live object"


def lost(b):
    for o in b.later:
        if o.klass.kind == "instance" and b.leading[o.address]:
            b.shift(b.at.get(o.address + 8 * o.size, o), -o.size)
            del o.space.words[o.at:o.at + o.size]
            return "a live object is lost, those after it are lower, references follow"


def gap(b):
    """As if a dead object had been left, with a filler in its place."""
    o = b.later[0]
    filler = next(address for address, klass in b.copy.klasses.items() if klass.name == "java/lang/Object")
    b.shift(o, 2)
    o.space.words[o.at:o.at] = array.array("Q", [1, filler])
    return "a filler of two words is left between objects, references follow"


def twice(b):
    """As if two workers had copied one object, and the first had not seen the other's forwarding."""
    for o in b.later:
        if len(b.leading[o.address]) > 1:
            w, i = b.leading[o.address][-1]
            w.space.words[w.at + i] = o.space.bottom + 8 * len(o.space.words)
            o.space.words.extend(o.space.words[o.at:o.at + o.size])
            return "an object is copied twice, and one reference leads to the second copy"


# Whether the rest is still lawful if live objects slide, and if each may go to a place of its own.
BROKEN = {
    swap: (False, True), twins: (False, True), gap: (False, True), stale: (False, False), card: (False, False),
    other: (False, False), data: (False, False), root: (False, False), weak: (False, False), lost: (False, False),
    twice: (False, False),
}
