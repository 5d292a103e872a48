"""Makes a large heap of edition three, and runs the program on it (tools/large says more)."""

import array
import os
import struct
import subprocess
import sys
import time

FROM_SPACE = 1 << 32
TO_SPACE = 1 << 33
SMALL = 8

# How many small objects are written in one piece.
PIECE = 65_536


def references(count):
    """The header of edition three of an object with many references, and tag 1."""
    return count + (1 << 48) + (1 << 62)


def data_words(count):
    """The header of edition three of an object with many data words, and tag 2."""
    return count + (2 << 48) + (1 << 63)


def small():
    """The mixed header of two references and five data words, with tag 3."""
    return 2 + (5 << 16) + (3 << 48)


class Heap:
    """The shape of the heap: a small object that is not marked, the two large ones, and the other small ones."""

    def __init__(self, words):
        quarter = words // 4
        self.refs = quarter - 1
        self.data = quarter - 1
        self.first_large = SMALL
        self.second_large = SMALL + quarter
        self.rest = SMALL + 2 * quarter
        self.others = max((words - self.rest) // SMALL, 1)
        self.words = self.rest + SMALL * self.others
        self.marks = 2 + self.others

    def other(self, number):
        """The address of the small object of this number; they go round."""
        return FROM_SPACE + self.rest + SMALL * (number % self.others)

    def write(self, file):
        """Writes the image."""
        file.write(b"COMPHEAP")
        file.write(struct.pack("<IIII", 3, self.words, self.marks, 1))
        file.write(struct.pack("<8Q", small(), *([0] * 7)))
        file.write(struct.pack("<Q", references(self.refs)))
        for begin in range(0, self.refs, PIECE):
            end = min(begin + PIECE, self.refs)
            array.array("Q", (self.other(k) for k in range(begin, end))).tofile(file)
        file.write(struct.pack("<Q", data_words(self.data)))
        for begin in range(0, self.data, PIECE):
            array.array("Q", range(begin, min(begin + PIECE, self.data))).tofile(file)
        for begin in range(0, self.others, PIECE):
            piece = array.array("Q")
            for k in range(begin, min(begin + PIECE, self.others)):
                piece.extend((small(), self.other(k + 1), 0, k, k, k, k, k))
            piece.tofile(file)
        array.array("I", (self.first_large, self.second_large)).tofile(file)
        for begin in range(0, self.others, PIECE):
            end = min(begin + PIECE, self.others)
            array.array("I", (self.rest + SMALL * k for k in range(begin, end))).tofile(file)
        file.write(struct.pack("<Q", FROM_SPACE + self.first_large))


def run(program, words, expected):
    """Runs the program; answers its processor time, its time, and its peak of memory in bytes, or None if it failed."""
    begun = time.monotonic()
    with subprocess.Popen([program, *words], stdout=subprocess.PIPE, stderr=subprocess.PIPE) as child:
        first = child.stdout.readline().decode()
        for _ in child.stdout:
            pass
        error = child.stderr.read().decode()
        _, status, used = os.wait4(child.pid, 0)
        child.returncode = os.waitstatus_to_exitcode(status)
    if child.returncode != 0 or first != expected:
        print(f"{' '.join(words)}: status {child.returncode}, printed {first!r}, and not {expected!r}; {error}")
        return None
    return used.ru_utime + used.ru_stime, time.monotonic() - begun, used.ru_maxrss * 1024


def main():
    program, words, folder = sys.argv[1], int(sys.argv[2]), sys.argv[3]
    heap = Heap(words)
    image, dump, picture = (os.path.join(folder, name) for name in ("large.img", "large.dump", "large.svg"))
    with open(image, "wb") as file:
        heap.write(file)
    live = heap.words - SMALL
    size = 8 * heap.words
    print(f"from-space {size / 1e6:.0f} MB, {heap.marks} objects marked, {live} live words")
    # The first reference of the first object leads to the first of the other small ones, which slid by eight words.
    word = TO_SPACE + heap.rest - SMALL
    rows = [("plan", ["plan", "--large", image], f"live {live}\n")]
    rows.append(("word", ["word", "--large", image, "1"], f"{word}\n"))
    rows.append(("map", ["map", "--large", image, picture], f"live {live}\n"))
    for workers in range(1, 5):
        asked = ["compact", "--large", "--workers", str(workers), image, dump]
        rows.append((f"compact, {workers} workers", asked, f"live {live}\n"))
        rows.append(("audit of it", ["audit", "--large", image, dump], f"ok {live}\n"))
    rows.append(("map of the last dump", ["map", "--large", "--dump", dump, image, picture], f"live {live}\n"))
    failed = False
    for name, asked, expected in rows:
        answer = run(program, asked, expected)
        if answer is None:
            failed = True
            continue
        busy, passed, peak = answer
        print(f"{name}: {busy:.2f} s of the processor, {passed:.2f} s, {peak / 1e6:.0f} MB, {peak / size:.2f} of from-space")
    print(f"the last picture: {os.path.getsize(picture) if os.path.exists(picture) else 0} bytes")
    for path in (image, dump, picture):
        if os.path.exists(path):
            os.remove(path)
    sys.exit(1 if failed else 0)


if __name__ == "__main__":
    main()
