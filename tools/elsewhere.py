"""Collections that a plain walk over the objects makes, into places that look random or side by side, and what the judges
must say of them: right ones, and wrong ones with one fault each. The work of tools/soak."""
import struct

FROM = 1 << 32
TO = 1 << 33
IMMEDIATE = 1 << 63


def counts(edition, word):
    """How many references, weak words and data words the object of a header has."""
    if edition >= 3 and word >> 62:
        many, few = word & 0x7FFFFFFF, word >> 31 & 0x1FFFF
        return ((many, 0, few), (few, 0, many), (0, many, few))[(word >> 62) - 1]
    return word & 65535, (word >> 32 & 65535) * (edition > 1), word >> 16 & 65535


class Left:
    """What a collection left: the new place of each marked object, the roots, and the words of to-space."""

    def __init__(self, image, places, spare=()):
        """The marked objects of the image at these places; words that no object has are the spare ones."""
        edition, total, marked, named = struct.unpack_from("<IIII", image, 8)
        old = struct.unpack_from(f"<{total}Q", image, 24)
        marks = struct.unpack_from(f"<{marked}I", image, 24 + 8 * total)
        roots = struct.unpack_from(f"<{named}Q", image, 24 + 8 * total + 4 * marked)
        new = {0: 0, **{FROM + at: TO + place for at, place in zip(marks, places)}}
        self.edition, self.places, self.words = edition, list(places), list(spare)
        self.roots = [root if root >= IMMEDIATE else new[root] for root in roots]
        self.sizes = []
        for at, place in zip(marks, places):
            refs, weak, data = counts(edition, old[at])
            size = 1 + refs + weak + data
            led = [word if word >= IMMEDIATE else new.get(word, 0) for word in old[at + 1 : at + 1 + refs + weak]]
            self.words[place : place + size] = [old[at], *led, *old[at + 1 + refs + weak : at + size]]
            self.sizes.append(size)

    def moved(self):
        """The bytes of a moved heap."""
        head = struct.pack("<IIII", self.edition, len(self.places), len(self.roots), len(self.words))
        lists = struct.pack(f"<{len(self.places)}I", *self.places) + struct.pack(f"<{len(self.roots)}Q", *self.roots)
        return b"COMPMOVE" + head + lists + struct.pack(f"<{len(self.words)}Q", *self.words)

    def bare(self):
        """The bytes of bare words and roots."""
        head = struct.pack("<III", self.edition, len(self.words), len(self.roots))
        return b"COMPWORD" + head + struct.pack(f"<{len(self.roots)}Q", *self.roots) + struct.pack(f"<{len(self.words)}Q", *self.words)


def sizes_in(image):
    """How many words each marked object of the image has."""
    edition, total, marked, _ = struct.unpack_from("<IIII", image, 8)
    marks = struct.unpack_from(f"<{marked}I", image, 24 + 8 * total)
    return [1 + sum(counts(edition, struct.unpack_from("<Q", image, 24 + 8 * at)[0])) for at in marks]


def slid(image):
    """All marked objects side by side, in their order."""
    places, at = [], 0
    for size in sizes_in(image):
        places.append(at)
        at += size
    return Left(image, places, [0] * at)


def scattered(draw, image):
    """All marked objects in another order, with free words between them."""
    sizes = sizes_in(image)
    order = list(range(len(sizes)))
    draw.shuffle(order)
    places, at = [0] * len(sizes), 0
    for k in order:
        at += draw.choice((0, 0, 1, 7))
        places[k] = at
        at += sizes[k]
    return Left(image, places, [draw.getrandbits(64) for _ in range(at + draw.choice((0, 1, 100)))])


def other(draw, word):
    """Another word than this one."""
    return word ^ (1 << draw.randrange(64))


def break_moved(draw, left):
    """Makes one thing of a moved heap wrong, and answers its fault."""
    ways = [wrong_edition, wrong_roots, *([wrong_root] if left.roots else [])]
    ways += [wrong_places, outside, wrong_word] if left.places else []
    ways += [overlap] if len(left.places) > 1 else []
    return draw.choice(ways)(draw, left)


def wrong_edition(draw, left):
    # Without --large, which heaps of editions one and two go without, these two alone are read.
    read = (1, 2, 3, 4) if left.edition >= 3 else (1, 2)
    left.edition = draw.choice([edition for edition in read if edition != left.edition])
    return "V1 WrongHead(Edition)"


def wrong_roots(draw, left):
    left.roots.append(0)
    return "V1 WrongHead(Roots)"


def wrong_places(draw, left):
    left.places.pop()
    return "V1 WrongHead(Places)"


def wrong_root(draw, left):
    i = draw.randrange(len(left.roots))
    left.roots[i] = other(draw, left.roots[i])
    return f"V4 WrongRoot({i})"


def outside(draw, left):
    k = draw.randrange(len(left.places))
    left.places[k] = len(left.words) - left.sizes[k] + draw.choice((1, 5, 1 << 20))
    return f"V2 PlaceOutside({k})"


def overlap(draw, left):
    """Two objects overlap, and perhaps others too: the first in the order of the places counts."""
    k, l = draw.sample(range(len(left.places)), 2)
    inside = left.places[k] + draw.randrange(left.sizes[k])
    left.places[l] = min(inside, len(left.words) - left.sizes[l])
    order = sorted(range(len(left.places)), key=lambda number: (left.places[number], number))
    pairs = zip(order, order[1:])
    first, second = next(pair for pair in pairs if left.places[pair[1]] < left.places[pair[0]] + left.sizes[pair[0]])
    return f"V3 Overlap({first}, {second})"


def wrong_word(draw, left):
    k = draw.randrange(len(left.places))
    offset = draw.randrange(left.sizes[k])
    at = left.places[k] + offset
    left.words[at] = other(draw, left.words[at])
    return f"V5 WrongWord({k}, {offset})"


def break_bare(draw, left):
    """Makes one thing of bare words wrong, and answers its fault."""
    kind = draw.randrange(3)
    if kind == 0 and left.words:
        at = draw.randrange(len(left.words))
        left.words[at] = other(draw, left.words[at])
        return f"A1 WrongWord({TO + at})"
    if kind == 1 and left.words:
        pages = -(-len(left.words) // 64)
        last = left.words.pop()
        if -(-len(left.words) // 64) != pages:
            return "A8 WrongHead"
        return f"A1 WrongWord({TO + len(left.words)})" if last else "A6 WrongTotal"
    if left.roots and draw.random() < 0.5:
        i = draw.randrange(len(left.roots))
        left.roots[i] = other(draw, left.roots[i])
    else:
        left.roots.append(0)
    return "A8 WrongHead"
