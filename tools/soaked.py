"""The work of tools/soak: heaps and traces that look random, and the program's runs on them.

usage: soaked.py PROGRAM MINUTES SEED
"""
import random
import re
import struct
import subprocess
import sys
import tempfile
import time
from pathlib import Path

import elsewhere

FROM = 1 << 32
TO = 1 << 33
IMMEDIATE = 1 << 63
SECONDS = 60
BEFORE = b"what was there before"
REFUSED = re.compile(r"compressor: T6 Refused\(\d+, M(1 Null|2 NotAStart\(\d{19,20}\)|3 NoSuchField|4 ObjectTooLarge|5 OutOfPages|6 Busy\(\d+\)|7 JournalFull\(\d+\)|11 NotInEdition)\)\n")


def header(edition, refs, weak, data, tag):
    """A header; from edition three on the tag says which form it has, unless there are too many data words for the mixed one."""
    if edition == 1:
        return refs + (data << 16) + (tag << 32)
    if edition >= 3 and weak == 0:
        if data > 65535 or tag % 4 == 1:
            return data + (refs << 31) + (tag << 48) + (1 << 63)
        if tag % 4 == 2:
            return refs + (data << 31) + (tag << 48) + (1 << 62)
    if edition >= 3 and refs == 0 and tag % 4 == 3:
        return weak + (data << 31) + (tag << 48) + (3 << 62)
    return refs + (data << 16) + (weak << 32) + (tag << 48)


def sizes(edition, word):
    """How many references and how many words the object of a header has."""
    if edition == 1:
        return word & 65535, 1 + (word & 65535) + (word >> 16 & 65535)
    if edition >= 3 and word >> 62:
        many, few = word & 0x7FFFFFFF, word >> 31 & 0x1FFFF
        return (0, many, few, 0)[word >> 62], 1 + many + few
    return word & 65535, 1 + (word & 65535) + (word >> 16 & 65535) + (word >> 32 & 65535)


def leads(word):
    """Whether a root or a reference leads to an object: it is neither null nor an immediate."""
    return 0 < word < IMMEDIATE


def lowered(word):
    """A to-space root as the next heap has it."""
    return word - TO + FROM if leads(word) else word


def reached(edition, words, seek):
    """The indices of the objects that start at these indices, and of those that their references reach, rising."""
    met = set()
    while seek:
        at = seek.pop()
        if at not in met:
            met.add(at)
            seek += [word & 0xFFFFFFFF for word in words[at + 1 : at + 1 + sizes(edition, words[at])[0]] if leads(word)]
    return sorted(met)


def weak_words(edition, word):
    """How many weak words the object of a header has."""
    if edition == 1:
        return 0
    if edition >= 3 and word >> 62:
        return word & 0x7FFFFFFF if word >> 62 == 3 else 0
    return word >> 32 & 65535


def slid(edition, words, roots):
    """What a collection by these roots leaves: the words, the marks and the roots. A plain walk."""
    marks, places, end = reached(edition, words, [root - FROM for root in roots if leads(root)]), {}, 0
    for at in marks:
        places[FROM + at] = FROM + end
        end += sizes(edition, words[at])[1]
    settled = [word if not leads(word) else places.get(word, 0) for word in words]
    left = []
    for at in marks:
        refers = sizes(edition, words[at])[0] + weak_words(edition, words[at])
        left += [words[at], *settled[at + 1 : at + 1 + refers], *words[at + 1 + refers : at + sizes(edition, words[at])[1]]]
    return left, [place - FROM for place in places.values()], [places.get(root, 0) if leads(root) else root for root in roots]


def image_of(edition, words, marks, roots):
    """The bytes of an image."""
    image = b"COMPHEAP" + struct.pack("<IIII", edition, len(words), len(marks), len(roots))
    return image + struct.pack(f"<{len(words)}Q", *words) + struct.pack(f"<{len(marks)}I", *marks) + struct.pack(f"<{len(roots)}Q", *roots)


def parts(image):
    """The edition, the words and the roots of an image."""
    edition, words, marks, roots = struct.unpack_from("<IIII", image, 8)
    at = 24 + 8 * words + 4 * marks
    return edition, struct.unpack_from(f"<{words}Q", image, 24), struct.unpack_from(f"<{roots}Q", image, at)


def left(dump):
    """The roots of a dump, the words of each page, or nothing if it was never built, and the indices at which new objects start."""
    at = 8

    def take(form):
        nonlocal at
        got = struct.unpack_from("<" + form, dump, at)
        at += struct.calcsize("<" + form)
        return got

    _, _, _, count, named = take("IIIII")
    roots, pages, starts = take(f"{named}Q"), [], []
    for p in range(count):
        if not take("B")[0]:
            pages.append(None)
            continue
        pages.append(take("64Q"))
        for _ in range(take("I")[0]):
            _, _, kind, offset, _ = take("QBBBQ")
            if kind == 0:
                starts.append(64 * p + offset)
    return roots, pages, starts


def immediate(draw, word):
    """An immediate; its low bits may look like this word."""
    return IMMEDIATE | draw.choice((0, word, draw.getrandbits(63), IMMEDIATE - 1))


def value(draw, edition, word):
    """A word that refers; in edition four some are immediates."""
    return immediate(draw, word) if edition == 4 and draw.random() < 0.3 else word


def heap(draw):
    """The bytes of an image, its edition, how many roots and live words it has, and where its marked objects start once they slid."""
    edition = draw.choice((1, 2, 3, 4))
    shapes = []
    for _ in range(draw.randint(0, 40)):
        weak = draw.randint(0, 2) if edition > 1 else 0
        data = draw.choice((0, 1, 2, 5, 60, 200))
        if edition >= 3 and weak == 0 and draw.random() < 0.05:
            data = draw.choice((2000, 70000))
        shapes.append((draw.randint(0, 3), weak, data, draw.randint(0, 16383 if edition >= 3 else 65535)))
    starts, at = [], 0
    for refs, weak, data, _ in shapes:
        starts.append(at)
        at += 1 + refs + weak + data
    often = draw.random()
    marked = [k for k in range(len(shapes)) if draw.random() < often]
    words = []
    for k, (refs, weak, data, tag) in enumerate(shapes):
        words.append(header(edition, refs, weak, data, tag))
        for _ in range(refs):
            lead = draw.choice(marked) if marked and draw.random() < 0.8 else None
            words.append(value(draw, edition, 0 if lead is None else FROM + starts[lead]))
        for _ in range(weak):
            words.append(value(draw, edition, FROM + draw.choice(starts) if draw.random() < 0.8 else 0))
        words += [draw.getrandbits(64) for _ in range(data)]
    marks = [starts[k] for k in marked]
    roots = [value(draw, edition, FROM + draw.choice(marks) if marks and draw.random() < 0.9 else 0) for _ in range(draw.randint(1, 5))]
    live, slid = 0, []
    for k in marked:
        slid.append(live)
        live += 1 + sum(shapes[k][:3])
    return image_of(edition, words, marks, roots), edition, len(roots), live, slid


def trace(draw, edition, mutators, roots):
    """A text that is lawful, some of whose lines may be refused; and which root register 15 of each mutator holds to the end."""
    lines, held = [], [draw.randrange(roots) for _ in range(mutators)]
    for m in range(mutators):
        lines.append(f"{m} root 0 {draw.randrange(roots)}")
        lines.append(f"{m} root 15 {held[m]}")
    for _ in range(draw.randint(0, 400)):
        m, d, s, v = draw.randrange(mutators), *(draw.randrange(4) for _ in range(3))
        kind = draw.random()
        weak = "w" if edition > 1 and draw.random() < 0.3 else ""
        if draw.random() < (0.15 if edition == 4 else 0.0005):
            lines.append(f"{m} imm {d} {immediate(draw, TO) - IMMEDIATE}")
        elif kind < 0.15:
            lines.append(f"{m} root {d} {draw.randrange(roots)}")
        elif kind < 0.4:
            lines.append(f"{m} {weak}load {d} {s} {draw.randrange(2)}")
        elif kind < 0.6:
            lines.append(f"{m} get {s} {draw.randrange(2)}")
        elif kind < 0.75:
            lines.append(f"{m} {weak}store {s} {draw.randrange(2)} {v}")
        elif kind < 0.9:
            lines.append(f"{m} put {s} {draw.randrange(2)} {draw.getrandbits(64)}")
        else:
            lines.append(f"{m} new {d} {draw.randrange(3)} {draw.randrange(3)} {draw.randrange(65536)}")
    # a mutator whose registers are null is refused soon: most traces end before that
    begun = 2 * mutators
    return "".join(f"{line}\n" for line in lines[: draw.choice((begun, begun + 5, begun + 40, len(lines)))]), held


class Soak:
    def __init__(self, program, folder):
        self.program, self.folder = program, Path(folder)
        self.large = ()
        self.runs = self.refused = self.faults = 0

    def fault(self, seed, told):
        self.faults += 1
        print(f"seed {seed}: {told}", flush=True)

    def run(self, seed, *words):
        """What a run printed, or nothing if it was refused by name or is at fault."""
        self.runs += 1
        try:
            asked = [self.program, words[0], *self.large, *words[1:]]
            ran = subprocess.run(asked, cwd=self.folder, capture_output=True, timeout=SECONDS)
        except subprocess.TimeoutExpired:
            return self.fault(seed, f"{' '.join(words)}: no end within {SECONDS} seconds")
        # What is no text stays visible, and is what no run was to print.
        out, err = (it.decode(errors="backslashreplace") for it in (ran.stdout, ran.stderr))
        if ran.returncode == 0 and not err:
            return out
        if ran.returncode == 1 and REFUSED.fullmatch(err):
            self.refused += 1
            return None
        return self.fault(seed, f"{' '.join(words)}: status {ran.returncode}, {err.strip()!r}")

    def judged(self, seed, told, *words):
        """A judge says this: a line on standard output, or the name of a fault."""
        self.runs += 1
        asked = [self.program, words[0], *self.large, *words[1:]]
        ran = subprocess.run(asked, cwd=self.folder, capture_output=True, timeout=SECONDS, text=True)
        wanted = (0, told, "") if told.endswith("\n") else (1, "", f"compressor: {told}\n")
        if (ran.returncode, ran.stdout, ran.stderr) != wanted:
            self.fault(seed, f"{' '.join(words)}: {ran.stdout!r}, {ran.stderr!r} in place of {told!r}")

    def audited(self, seed, what, printed, slid):
        """The dump that a run left passes, and has the live words that it printed; it is whole if all compacted pages were built."""
        live = printed.splitlines()[-1].removeprefix("live ")
        judged = self.run(seed, "audit", "heap.img", "left.dump")
        if judged is not None and judged != f"ok {live}\n":
            self.fault(seed, f"{what}: live {live}, and the audit says {judged!r}")
        pages = left((self.folder / "left.dump").read_bytes())[1][: -(-slid // 64)]
        missing = [p for p, page in enumerate(pages) if page is None]
        self.judged(seed, f"A9 PageMissing({missing[0]})" if missing else f"ok {live}\n", "audit", "--whole", "heap.img", "left.dump")

    def elsewhere(self, seed, draw, image, live):
        """What other collectors left of the heap: right, and with one fault."""
        bare, moved = elsewhere.slid(image), elsewhere.scattered(draw, image)
        lines = f"ok {live}\nobjects {len(moved.places)}\n"
        for wrong in (False, True):
            told = elsewhere.break_bare(draw, bare) if wrong else f"ok {live}\n"
            (self.folder / "heap.words").write_bytes(bare.bare())
            self.judged(seed, told, "audit", "--words", "heap.img", "heap.words")
            told = elsewhere.break_moved(draw, moved) if wrong else lines
            (self.folder / "heap.moved").write_bytes(moved.moved())
            self.judged(seed, told, "moved", "heap.img", "heap.moved")

    def followed(self, seed, draw, edition, slid, swept, few, held, printed):
        """The next cycle after a replay, by marks that look random: its heap is planned, compacted and audited. Then by what the roots
        reach: those that stay, and others."""
        roots, pages, made = left((self.folder / "left.dump").read_bytes())
        zeros = (0,) * 64
        words = [word for p, page in enumerate(pages) for word in page or (swept[p] if p < len(swept) else zeros)]
        often = draw.random()
        kept = [at for at in slid + made if draw.random() < often]
        marks = reached(edition, words, [root - TO for root in roots if leads(root)] + kept)
        live = f"live {sum(sizes(edition, words[at])[1] for at in marks)}\n"
        (self.folder / "heap.marks").write_text("".join(f"{at}\n" for at in marks))
        lines = "".join(printed.splitlines(True)[:-1])
        for what, told in (
            (("next", *few, "heap.img", "heap.trace", "heap.marks", "next.img"), lines + live),
            (("compact", "next.img", "next.dump"), live),
            (("audit", "next.img", "next.dump"), live.replace("live", "ok")),
        ):
            answer = self.run(seed, *what)
            if answer is None:
                return
            if answer != told:
                self.fault(seed, f"{' '.join(what)}: {answer!r} in place of {told!r}")
        plan = self.run(seed, "plan", "next.img")
        if plan is not None and not plan.startswith(live):
            self.fault(seed, f"plan next.img: {plan[:40]!r} in place of {live!r}")
        self.marked(seed, "mark", "next.img")
        self.marked(seed, "next", "next.img", *few, "--reachable", "heap.img", "heap.trace", shown=lines)
        named, others = self.named(draw, edition, slid + made, [roots[k] for k in held])
        (self.folder / "heap.roots").write_text("".join(f"{it}\n" for it in named))
        rooted = ("--reachable", "--workers", str(1 + seed % 5), "--roots", "heap.roots", "heap.img", "heap.trace")
        self.marked(seed, "next", "next.img", *few, *rooted, shown=lines, others=others)

    def named(self, draw, edition, starts, held):
        """Roots as a text names them, and as the next heap has them: objects by their addresses, what registers hold, immediates and null."""
        named = []
        for _ in range(draw.randint(0, 6)):
            kind = draw.random()
            if kind < 0.4 and starts:
                at = draw.choice(starts)
                named.append((TO + at, FROM + at))
            elif kind < 0.8:
                m = draw.randrange(len(held))
                named.append((f"{m} 15", lowered(held[m])))
            elif edition == 4:
                named.append((immediate(draw, TO),) * 2)
            else:
                named.append((draw.choice(("0", "0 14")), 0))
        return [name for name, _ in named], [root for _, root in named]

    def marked(self, seed, command, heap, *words, shown="", others=None):
        """The command writes the heap of an image, with these other roots if there are some, and with the objects marked that its roots
        reach."""
        edition, all_words, roots = parts((self.folder / heap).read_bytes())
        roots = roots if others is None else others
        marks = reached(edition, all_words, [root - FROM for root in roots if leads(root)])
        told = f"{shown}live {sum(sizes(edition, all_words[at])[1] for at in marks)}\n"
        answer = self.run(seed, command, *(words or (heap,)), "marked.img")
        if answer is None:
            return
        if answer != told:
            self.fault(seed, f"{command}: {answer!r} in place of {told!r}")
        if (self.folder / "marked.img").read_bytes() != image_of(edition, all_words, marks, roots):
            self.fault(seed, f"{command}: another image than that of the heap marked by its roots")

    def collected(self, seed):
        """The command `collect` writes what the roots of the heap reach, slid to the beginning."""
        edition, words, roots = parts((self.folder / "heap.img").read_bytes())
        left, marks, moved = slid(edition, words, roots)
        answer = self.run(seed, "collect", "--workers", str(1 + seed % 5), "heap.img", "left.img")
        if answer is None:
            self.fault(seed, "collect: refused")
        elif answer != f"live {len(left)}\n":
            self.fault(seed, f"collect: {answer!r} in place of live {len(left)}")
        elif (self.folder / "left.img").read_bytes() != image_of(edition, left, marks, moved):
            self.fault(seed, "collect: another image than that of what the roots reach, slid")

    def step(self, seed):
        draw = random.Random(seed)
        image, edition, roots, live, places = heap(draw)
        self.large = ("--large",) if edition >= 3 else ()
        (self.folder / "heap.img").write_bytes(image)
        self.marked(seed, "mark", "heap.img")
        self.collected(seed)
        self.elsewhere(seed, random.Random(-seed), image, live)
        workers = draw.choice((1, 2, 3, 4, 8, 64))
        printed = self.run(seed, "compact", "--workers", str(workers), "heap.img", "left.dump")
        if printed is not None:
            if printed != f"live {live}\n":
                self.fault(seed, f"compact: {printed!r} in place of live {live}")
            self.audited(seed, "compact", printed, live)
        swept = left((self.folder / "left.dump").read_bytes())[1] if printed is not None else None
        mutators = draw.choice((1, 2, 4, 16, 64))
        text, held = trace(draw, edition, mutators, roots)
        (self.folder / "heap.trace").write_text(text)
        few = ("--mutators", str(mutators), "--fresh", str(draw.choice((0, mutators, 2 * mutators))))
        shown = []
        for command in ("replay", "race"):
            dump = self.folder / "left.dump"
            dump.write_bytes(BEFORE)
            printed = self.run(seed, command, *few, "heap.img", "heap.trace", "left.dump")
            if printed is None:
                if dump.read_bytes() != BEFORE:
                    self.fault(seed, f"{command}: what was at the path is lost")
            else:
                self.audited(seed, command, printed, live)
                if command == "replay" and swept is not None:
                    self.followed(seed, draw, edition, places, swept, few, held, printed)
            shown.append(printed)
        if mutators == 1 and shown[0] != shown[1]:
            self.fault(seed, f"one mutator: a replay prints {shown[0]!r}, a race {shown[1]!r}")
        if list(self.folder.glob(".compressor-*")):
            self.fault(seed, "a file is left beside a dump or a new image")


def main():
    program, minutes, seed = Path(sys.argv[1]).resolve(), int(sys.argv[2]), int(sys.argv[3])
    end = time.monotonic() + 60 * minutes
    with tempfile.TemporaryDirectory(prefix="soak-") as folder:
        soak = Soak(program, folder)
        while time.monotonic() < end:
            soak.step(seed)
            seed += 1
        print(f"{soak.runs} runs, {soak.refused} of them refused by name, {soak.faults} faults; the next seed is {seed}")
    sys.exit(1 if soak.faults else 0)


main()
