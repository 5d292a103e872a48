#!/usr/bin/env python3
"""usage: judge.py IMAGE LEFT

Judges what a collection left of a heap: a small model of `compressor audit`, `audit --words` and `moved`. It shares
nothing with the program, and believes that the files are whole, and that nothing was allocated meanwhile. LEFT is a
dump, or words, or what moved: the file itself says what it is.

  --help  prints this text

Status: 0 if it is right; 1 if not; 2 for a wrong word.
"""

import array
import collections
import itertools
import os
import sys

sys.dont_write_bytecode = True
from heapreader import PAGE, Moved, counts, read_image, read_left, size  # noqa: E402

F, T = 1 << 32, 1 << 33


class Fault(Exception):
    pass


def check_image(heap):
    """Of the faults of a heap those that a wrong marking causes."""
    words, starts, at = heap.words, {0}, 0
    while at < len(words):
        starts.add(F + at)
        at += size(heap.edition, words[at])
    marked = {0} | {F + mark for mark in heap.marks}
    faults = ["H4 MarkNotStart(%d)" % mark for mark in heap.marks if F + mark not in starts]
    faults += ["H6 BadRoot(%d)" % k for k, root in enumerate(heap.roots) if root not in marked]
    weak = []
    for mark in heap.marks:
        r, s, _ = counts(heap.edition, words[mark])
        if not marked.issuperset(words[mark + 1:mark + 1 + r]):
            faults += ["H7 UnmarkedTarget(%d)" % i for i in range(mark + 1, mark + 1 + r) if words[i] not in marked]
        weak += ["H13 BadWeak(%d)" % i for i in range(mark + 1 + r, mark + 1 + r + s) if words[i] not in starts]
    if faults or weak:
        raise Fault((faults + weak)[0])


def words_after(heap, mark, new):
    """The words of a marked object, if `new` says where each marked object went."""
    r, s, d = counts(heap.edition, heap.words[mark])
    w = heap.words[mark:mark + 1 + r + s + d]
    return w[:1] + array.array("Q", [new.get(x, 0) for x in w[1:1 + r + s]]) + w[1 + r + s:]


def judge_moved(heap, left):
    for part, right in (("Edition", left.edition == heap.edition), ("Places", len(left.places) == len(heap.marks)),
                        ("Roots", len(left.roots) == len(heap.roots))):
        if not right:
            raise Fault("V1 WrongHead(%s)" % part)
    ends = [place + size(heap.edition, heap.words[mark]) for place, mark in zip(left.places, heap.marks)]
    for k, end in enumerate(ends):
        if end > len(left.words):
            raise Fault("V2 PlaceOutside(%d)" % k)
    order = sorted(range(len(ends)), key=lambda k: (left.places[k], k))
    for k, l in zip(order, order[1:]):
        if left.places[l] < ends[k]:
            raise Fault("V3 Overlap(%d, %d)" % (k, l))
    new = {F + mark: T + place for mark, place in zip(heap.marks, left.places)}
    for i, root in enumerate(heap.roots):
        if left.roots[i] != new.get(root, 0):
            raise Fault("V4 WrongRoot(%d)" % i)
    for k, mark in enumerate(heap.marks):
        want, have = words_after(heap, mark, new), left.words[left.places[k]:ends[k]]
        if want != have:
            raise Fault("V5 WrongWord(%d, %d)" % (k, next(i for i in range(len(want)) if want[i] != have[i])))
    return "ok %d, objects %d" % (sum(ends) - sum(left.places), len(ends))


def judge_dump(heap, left, whole=False):
    ends = list(itertools.accumulate(size(heap.edition, heap.words[mark]) for mark in heap.marks))
    live, starts = ends[-1] if ends else 0, [0] + ends[:-1]
    new = {F + mark: T + start for mark, start in zip(heap.marks, starts)}
    words, kinds = array.array("Q"), bytearray()  # of each word that a live object has, as entries name kinds
    for mark in heap.marks:
        r, s, d = counts(heap.edition, heap.words[mark])
        kinds += b"\0" + b"\1" * r + b"\3" * s + b"\2" * d
        words += words_after(heap, mark, new)
    words.extend([0] * (-live % PAGE))
    kinds.extend([0] * (-live % PAGE))
    if (left.edition != heap.edition or PAGE * len(left.pages) != len(words) or left.fresh
            or list(left.roots) != [new.get(root, 0) for root in heap.roots]):
        raise Fault("A8 WrongHead")
    built = collections.Counter(p for row in left.builds for p in row)
    faults = ["A7 BuildUnclaimed(%d)" % p for p, page in enumerate(left.pages) if built[p] != (page is not None)]
    pages = [(p, *page) for p, page in enumerate(left.pages) if page]
    entries = [(p, k, e) for p, _, row in pages for k, e in enumerate(row)]
    faults += ["A3 BadEntry(%d, %d)" % (p, k) for p, k, e in entries if e[2] == 0 or kinds[PAGE * p + e[3]] != e[2]
               or k and left.pages[p][1][k - 1][0] >= e[0]]
    for p, k, e in entries:
        words[PAGE * p + e[3]] = e[4]
    wrong = [(PAGE * p, row) for p, row, _ in pages if row != words[PAGE * p:PAGE * (p + 1)]]
    faults += ["A1 WrongWord(%d)" % (T + i + j) for i, row in wrong for j, w in enumerate(row) if w != words[i + j]]
    good = {0, *new.values()}
    faults += ["A2 LooseReference(%d)" % (T + PAGE * p + i) for p, row, _ in pages for i, w in enumerate(row)
               if kinds[PAGE * p + i] in (1, 3) and w not in good]
    stamps = sorted(e[0] for _, _, e in entries)
    faults += ["A4 StampRepeated(%d)" % a for a, b in zip(stamps, stamps[1:]) if a == b]
    faults += ["A5 StampMissing(%d)" % a for a, b in enumerate(stamps) if a != b]
    entries.sort(key=lambda entry: entry[2])
    faults += ["A3 BadEntry(%d, %d)" % (p, k) for p, k, e in entries if e[2] != 2 and e[4] not in good]
    faults += ["A6 WrongTotal"] * (left.live != live)
    faults += ["A9 PageMissing(%d)" % p for p, page in enumerate(left.pages) if whole and not page]
    if faults:
        raise Fault(faults[0])
    return "ok %d" % live


def accepted(path):
    """The heap of an image."""
    heap = read_image(path)
    check_image(heap)
    return heap


def judge(heap, path, whole=False):
    """What is said of what is left of a heap. Whole: each page of a dump must be built."""
    left = read_left(path)
    return judge_moved(heap, left) if isinstance(left, Moved) else judge_dump(heap, left, whole)


def wrong(said):
    print("judge.py: %s (--help says more)" % said, file=sys.stderr)
    sys.exit(2)


def main():
    files = sys.argv[1:]
    for word in files:
        if word == "--help":
            print(__doc__, end="")
            return
        if word.startswith("-"):
            wrong("no word " + word)
    if len(files) != 2:
        wrong("it wants two files")
    for path in files:
        if not os.path.isfile(path):
            wrong("no file at " + path)
    try:
        print(judge(accepted(files[0]), files[1]))
    except Fault as fault:
        sys.exit(str(fault))


if __name__ == "__main__":
    main()
