"""Makes of two copies of a heap, before and after a collection, the files that `compressor` judges.

The region is the whole Java heap. Its objects in their order, space by space, are the row of words before; those that
are found afterwards, in the same way, are the words of the target. So no address is computed by the rules of a
collector: each object stands where it was found. One word of HotSpot is one word here, but permuted within its object.
"""

import array
import collections
import functools
import pathlib
import sys

sys.path.append(str(pathlib.Path(__file__).resolve().parent.parent / "formats"))
import heapfiles as hf  # noqa: E402

EDITION = 3  # objects of any length
TAG = (1 << 14) - 1
NOWHERE = (1 << 32) - 1


class Row:
    """All objects of a copy as one row of words, of which the first has the address `base`."""

    def __init__(self, copy, base):
        self.copy, self.base = copy, base
        self.objects = list(copy.objects())
        self.index = []  # for each object the number of its first word
        self.address = {0: 0}  # from real addresses to those of the row
        self.length = 0
        for o in self.objects:
            self.index.append(self.length)
            self.address[o.address] = base + self.length
            self.length += o.size
        self.identities = [copy.identity(o) for o in self.objects]

    def lead(self, real):
        """The address in the row. What leads to no object's start stays as it is, for the judge to find."""
        return self.address.get(real, real)

    def roots(self):
        return [self.lead(root) for root in self.copy.roots]

    @functools.cached_property
    def words(self):
        words = array.array("Q")
        for o in self.objects:
            words.extend(self.words_of(o))
        return words

    def words_of(self, o):
        fields, w = self.copy.fields(o), o.space.words[o.at:o.at + o.size]
        tag = self.copy.identity(o) & TAG
        header = hf.header(EDITION, len(fields.references), len(fields.data), len(fields.weak), tag)
        lead = self.address.get
        leading = [lead(w[i], w[i]) for part in (fields.references, fields.weak) for i in part]
        return [header, *leading, *[w[i] for i in fields.data]]

    @functools.cached_property
    def writes(self):
        """The words that the collector writes itself, as (kind, index, value)."""
        writes = []
        for o, start in zip(self.objects, self.index):
            fields = self.copy.fields(o)
            for i in fields.own:
                at = start + 1 + [*fields.references, *fields.weak, *fields.data].index(i)
                writes.append((hf.REFERENCE if i in fields.references else hf.DATA, at, self.words[at]))
        return writes

    def masked(self):
        """The row's words; those that the collector writes itself are 0."""
        words = self.words[:]
        for _, at, _ in self.writes:
            words[at] = 0
        return words


def survivors(before, after):
    """The numbers of the objects of before that are found again. These are marked."""
    check_identities(before)
    found = set(after.identities)
    return [k for k, identity in enumerate(before.identities) if identity in found]


def check_identities(row):
    twice = [identity for identity, count in collections.Counter(row.identities).items() if count > 1 or identity == 0]
    if twice:
        raise ValueError("%d objects have no identity of their own" % len(twice))


def image(before, marked, words):
    """Words: those of before, masked or not."""
    return hf.image(EDITION, words, [before.index[k] for k in marked], before.roots())


def dump(after):
    """The collector's own writes are entries."""
    return hf.dump_of_words(EDITION, after.roots(), after.words, after.writes)


def unbuilt(after):
    """A dump whose maker says that no page was ever built."""
    return hf.dump(EDITION, [None] * -(-after.length // hf.PAGE_WORDS), after.roots(), [[]], after.length)


def words(after):
    return hf.words(EDITION, after.roots(), after.masked())


def moved(after, places):
    return hf.moved(EDITION, places, after.roots(), after.masked())


def places(before, marked, after):
    """Where the marked objects are afterwards: each at the first place with its identity. One that is lost is nowhere.
    """
    found = {}
    for identity, start in zip(after.identities, after.index):
        found.setdefault(identity, start)
    return [found.get(before.identities[k], NOWHERE) for k in marked]
