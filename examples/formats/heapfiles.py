"""Writes heap images, dumps, words and moved heaps, the files that `compressor` judges (docs/FORMATS.md).

Each call answers the bytes of one whole file. It checks nothing: what is wrong with a file is for the judge to say. A
list may be any iterable of numbers. An `array.array("Q")` of words, or "I" of indices, is the quickest.
"""

import array
import collections
import struct
import sys

FROM_SPACE = 1 << 32  # the address of from-space word 0
TO_SPACE = 1 << 33  # the address of to-space word 0
PAGE_WORDS = 64
HEADER, REFERENCE, DATA, WEAK = range(4)  # kinds of entries

# One write or allocation of a mutator: the field at `offset` of a page became `value`.
Entry = collections.namedtuple("Entry", "stamp writer kind offset value")
# A page that was built: its 64 words, and its entries in their order. A page that was never built is None.
Page = collections.namedtuple("Page", "words entries")


def header(edition, references, data, weak=0, tag=0):
    """The header of an object. From edition three on the form with room for all three counts is taken if they fit."""
    if edition == 1:
        return references | data << 16 | tag << 32
    if edition == 2 or max(references, data, weak) < 1 << 16:
        return references | data << 16 | weak << 32 | tag << 48
    if weak:
        return weak | data << 31 | tag << 48 | 3 << 62
    if data < references:
        return references | data << 31 | tag << 48 | 1 << 62
    return data | references << 31 | tag << 48 | 2 << 62


def image(edition, words, marks, roots):
    """The heap with which a cycle begins. Words: from-space, a row of objects without gaps. Marks: at which words
    marked objects start, rising. Roots: from-space addresses, or 0."""
    words, marks, roots = _words(words), _indices(marks), _words(roots)
    counts = struct.pack("<III", len(words) // 8, len(marks) // 4, len(roots) // 8)
    return _head(b"COMPHEAP", edition) + counts + words + marks + roots


def words(edition, roots, live):
    """What is left, if live objects slid in their order: the roots, to-space addresses or 0, and the live words."""
    roots, live = _words(roots), _words(live)
    return _head(b"COMPWORD", edition) + struct.pack("<II", len(live) // 8, len(roots) // 8) + roots + live


def moved(edition, places, roots, words):
    """What is left, if each object moved to a place of its own. Places: of each marked object, as an index into the
    words, in the order of the marks. Words: the target space; what lies in no object is free."""
    places, roots, words = _indices(places), _words(roots), _words(words)
    counts = struct.pack("<III", len(places) // 4, len(roots) // 8, len(words) // 8)
    return _head(b"COMPMOVE", edition) + counts + places + roots + words


def dump(edition, pages, roots, builds, live, fresh=0):
    """What is left, page by page, if mutators wrote and allocated while the collection went on. The fresh pages are the
    last ones. Builds: for each mutator the numbers of the pages that it built, in its order."""
    roots = _words(roots)
    parts = [_head(b"COMPDUMP", edition), struct.pack("<IIII", len(builds), fresh, len(pages), len(roots) // 8), roots]
    parts += [_page(page) for page in pages]
    for built in builds:
        built = _indices(built)
        parts.append(struct.pack("<I", len(built) // 4) + built)
    return b"".join(parts) + struct.pack("<Q", live)


def dump_of_words(edition, roots, words, writes=()):
    """The dump of a collection that stops the world and slides: all pages are built by one mutator, and the last one
    ends in zeros. Writes are words that the collector itself set, as (kind, index, value), in their order."""
    words = list(words)
    entries = collections.defaultdict(list)
    for stamp, (kind, index, value) in enumerate(writes):
        entries[index // PAGE_WORDS].append(Entry(stamp, 0, kind, index % PAGE_WORDS, value))
    count = -(-len(words) // PAGE_WORDS)
    padded = words + [0] * (PAGE_WORDS * count - len(words))
    pages = [Page(padded[PAGE_WORDS * p:PAGE_WORDS * (p + 1)], entries[p]) for p in range(count)]
    return dump(edition, pages, roots, [range(count)], len(words))


def _page(page):
    if page is None:
        return b"\0"
    entries = b"".join(struct.pack("<QBBBQ", *entry) for entry in page.entries)
    return b"\1" + _words(page.words) + struct.pack("<I", len(page.entries)) + entries


def _head(magic, edition):
    return magic + struct.pack("<I", edition)


def _words(items):
    return _little("Q", items)


def _indices(items):
    return _little("I", items)


def _little(kind, items):
    items = array.array(kind, items)
    if sys.byteorder == "big":
        items.byteswap()
    return items.tobytes()
