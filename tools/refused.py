"""The work of tools/refuse-each-allocation.

usage: refused.py RUNS PROGRAM
"""
import os
import re
import resource
import struct
import subprocess
import sys
import tempfile
from pathlib import Path

HERE = Path(__file__).resolve().parent
NARROW = 128 << 10  # Linux maps so much stack as a program starts: whoever needs no more is not ended for want of memory
FROM = 1 << 32
TO = 1 << 33
IMMEDIATE = 1 << 63
BEFORE = b"what was there before"
NAMED = re.compile(
    r"compressor: (P7 OutOfMemory|H11 OutOfMemory|B5 OutOfMemory|T7 OutOfMemory|M8 OutOfMemory|W1 OutOfMemory\(\d+\)|W3 Resources"
    r"|T6 Refused\(\d+, M8 OutOfMemory\))\n"
)


def image(words, marks, roots, version=1):
    packed = b"COMPHEAP" + struct.pack("<IIII", version, len(words), len(marks), len(roots))
    return packed + struct.pack(f"<{len(words)}Q", *words) + struct.pack(f"<{len(marks)}I", *marks) + struct.pack(f"<{len(roots)}Q", *roots)


THREE = image([65536 + FROM, 11, 65537 + 2 * FROM, 0, 22, 1 + 3 * FROM, FROM], [0, 5], [FROM + 5])
LARGE = image([65536 + (1 << 48), 11, 65537 + (2 << 48), 0, 22, 1 + (3 << 48), FROM], [0, 5], [FROM + 5], version=3)
FOUR = image([65536 + (1 << 48), 11, 65537 + (2 << 48), 0, 22, 1 + (3 << 48), FROM], [0, 5], [FROM + 5, IMMEDIATE], version=4)
TWENTY = image(([639 << 16] + [0] * 639) * 2, [0, 640], [])
SEEN = b"0 root 0 0\n0 load 1 0 0\n0 put 1 0 7\n1 root 0 0\n1 load 1 0 0\n1 get 1 0\n"
FRESH = b"0 root 0 0\n0 new 1 0 0 0\n0 store 0 0 1\n"
IMM = b"0 root 0 0\n0 imm 1 7\n0 store 0 0 1\n"
KEPT = b"2\n64\n"
WORDS = b"COMPWORD" + struct.pack("<III5Q", 1, 4, 1, TO + 2, 65536 + FROM, 11, 1 + 3 * FROM, TO)
COPIED = b"COMPMOVE" + struct.pack("<IIII2IQ4Q", 1, 2, 1, 4, 2, 0, TO, 1 + 3 * FROM, TO + 2, 65536 + FROM, 11)
FILES = {"three.img": THREE, "three.words": WORDS, "three.moved": COPIED, "large.img": LARGE, "four.img": FOUR, "imm.trace": IMM, "twenty.img": TWENTY, "seen.trace": SEEN, "fresh.trace": FRESH, "kept.marks": KEPT, "new.roots": b"0 1\n"}

# the length of a picture: it is as long as it is
PICTURE = -1

# the words of a command, what it prints, and how long its dump, its new image or its picture is, if it writes one
COMMANDS = [
    ("word three.img 2", ["12884901889\n"], None),
    ("plan three.img", ["live 4\npages 1\npage 0 first 0\nroot 0 8589934594\n"], None),
    ("compact --workers 1 twenty.img left.dump", ["live 1280\n"], 10460),
    ("compact --workers 2 twenty.img left.dump", ["live 1280\n"], 10464),
    ("replay three.img seen.trace left.dump", ["6 7\nlive 4\n"], 656),
    ("replay --mutators 1 --fresh 2 three.img fresh.trace left.dump", ["live 5\n"], 1129),
    ("race three.img seen.trace left.dump", ["6 7\nlive 4\n", "6 11\nlive 4\n"], 656),
    ("audit three.img fresh.dump", ["ok 5\n"], None),
    ("audit --whole three.img fresh.dump", ["ok 5\n"], None),
    ("audit --explain three.img fresh.dump", ["built 2 of 3 pages\nentries 2\nok 5\n"], None),
    ("audit --words three.img three.words", ["ok 4\n"], None),
    ("moved three.img three.moved", ["ok 4\nobjects 2\n"], None),
    ("next --mutators 1 --fresh 2 three.img fresh.trace kept.marks left.dump", ["live 3\n"], 1576),
    ("next --reachable --mutators 1 --fresh 2 three.img fresh.trace left.dump", ["live 3\n"], 1576),
    ("next --reachable --roots new.roots --mutators 1 --fresh 2 three.img fresh.trace left.dump", ["live 1\n"], 1572),
    ("mark three.img left.dump", ["live 4\n"], 96),
    ("collect --workers 2 three.img left.dump", ["live 4\n"], 72),
    ("collect --large --workers 1 four.img left.dump", ["live 4\n"], 80),
    ("map three.img left.dump", ["live 4\n"], PICTURE),
    ("map --dump fresh.dump three.img left.dump", ["live 4\n"], PICTURE),
    ("map --dump wrong.dump three.img left.dump", ["live 4\n"], PICTURE),
    ("word --large large.img 2", ["844424930131969\n"], None),
    ("compact --large --workers 1 large.img left.dump", ["live 4\n"], 569),
    ("replay --large --mutators 1 --fresh 0 four.img imm.trace left.dump", ["live 4\n"], 596),
    ("--help", None, None),
]


class Refusing:
    def __init__(self, folder):
        self.folder = Path(folder)
        self.shim = self.folder / "refuse.so"
        page = subprocess.run(["rt", "doc"], cwd=HERE, check=True, capture_output=True, text=True).stdout.strip()
        compiler = Path(page).parent / "toolchain" / "bin" / "clang"
        words = ["-O1", "-shared", "-fPIC", "-nostdlib", "-fuse-ld=lld", "-o", str(self.shim), str(HERE / "refuse.c")]
        subprocess.run([str(compiler), *words], check=True)
        self.told = self.folder / "told"
        self.faults = 0

    def run(self, number, words, above=0):
        """A run whose allocation of this number fails, and, if `above` is not 0, each of more bytes; and whether it had one."""
        self.told.unlink(missing_ok=True)
        env = {**os.environ, "LD_PRELOAD": str(self.shim), "REFUSE": str(number), "REFUSE_ABOVE": str(above), "REFUSE_TOLD": str(self.told)}
        try:
            ran = subprocess.run(words, cwd=self.folder, env=env, capture_output=True, timeout=60, stdin=subprocess.DEVNULL)
        except subprocess.TimeoutExpired:
            return None, True
        return ran, self.told.exists()

    def narrow(self, words):
        """A run with little stack, none of which the environment takes."""

        def limit():
            resource.setrlimit(resource.RLIMIT_STACK, (NARROW, NARROW))

        return subprocess.run(words, cwd=self.folder, env={}, capture_output=True, timeout=60, stdin=subprocess.DEVNULL, preexec_fn=limit)

    def fault(self, name, number, told):
        self.faults += 1
        print(f"{name}: allocation {number}: {told}", flush=True)

    def each(self, name, words, judge, prepare=lambda: None):
        """Each allocation of a run in turn, until a run has none of that number."""
        number, met, refused = 1, True, 0
        while met:
            prepare()
            ran, met = self.run(number, words)
            if ran is None:
                self.fault(name, number, "no end within 60 seconds")
            else:
                wrong = judge(ran, met)
                refused += ran.returncode == 1
                if wrong:
                    self.fault(name, number, f"{wrong}: status {ran.returncode}, {ran.stdout[-200:]!r}, {ran.stderr[-200:]!r}")
            number += 1
            if self.faults > 20:
                break
        if number <= 2:
            self.fault(name, 1, "no allocation was met")
        print(f"{name}: {number - 2} allocations, {refused} of which end it, by name", flush=True)

    def command(self, program, line, prints, length):
        dump = self.folder / "left.dump"
        words = [program, *line.split()]

        def prepare():
            dump.write_bytes(BEFORE)

        # What it writes if nothing is refused: the same each time, unless threads run side by side.
        prepare()
        self.run(0, words)
        wanted = dump.read_bytes()
        alone = not line.startswith("race ") and "--workers 2" not in line

        def is_whole(ran):
            """Whether a run of status 0 gave its whole answer."""
            left = dump.read_bytes()
            same = left == wanted if alone else len(left) == len(wanted)
            return same and (prints is None or ran.stdout.decode() in prints) and not ran.stderr

        def judge(ran, met):
            if list(self.folder.glob(".compressor-*")):
                for it in self.folder.glob(".compressor-*"):
                    it.unlink()
                return "a file is left beside the path"
            if ran.returncode == 0:
                return None if is_whole(ran) else "not the whole answer"
            if ran.returncode != 1 or not met or not NAMED.fullmatch(ran.stderr.decode(errors="replace")):
                return "not refused by name"
            if dump.read_bytes() != BEFORE:
                return "what was at the path is lost"
            # No value is shown before the refused line of a replay; in a race the other mutator may have shown one.
            shown = [b"", b"6 7\n", b"6 11\n"] if line.startswith("race ") and b"T6 Refused(" in ran.stderr else [b""]
            return None if ran.stdout in shown else "printed something else"

        if length == PICTURE:
            whole = wanted.rstrip().endswith(b"</svg>")
        else:
            whole = len(wanted) == (len(BEFORE) if length is None else length)
        if not whole:
            self.fault(line, 0, f"{len(wanted)} bytes if nothing is refused")
        self.each(line, words, judge, prepare)
        if ".img" in line:
            prepare()
            ran = self.narrow(words)
            if ran.returncode or not is_whole(ran):
                self.fault(line, 0, f"status {ran.returncode} with a stack of {NARROW} bytes: {ran.stderr[-200:]!r}")


def main():
    runs, program = str(Path(sys.argv[1]).resolve()), str(Path(sys.argv[2]).resolve())
    with tempfile.TemporaryDirectory(prefix="refuse-") as folder:
        refusing = Refusing(folder)
        for name, content in FILES.items():
            (refusing.folder / name).write_bytes(content)
        words = "replay --mutators 1 --fresh 2 three.img fresh.trace fresh.dump"
        subprocess.run([program, *words.split()], cwd=folder, check=True, capture_output=True)
        # the same with another word where 11 was
        (refusing.folder / "wrong.dump").write_bytes((refusing.folder / "fresh.dump").read_bytes().replace(struct.pack("<Q", 11), struct.pack("<Q", 12), 1))
        whole, _ = refusing.run(0, [runs])
        if whole is None or whole.returncode or b"NOT" in whole.stdout:
            refusing.fault("refused_runs", 0, "not as it has to be if nothing is refused")
        else:
            refusing.each(
                "refused_runs",
                [runs],
                lambda ran, met: None if (ran.returncode, ran.stdout, ran.stderr) == (0, whole.stdout, b"") else "another text",
            )
        for line, prints, length in COMMANDS:
            refusing.command(program, line, prints, length)
    sys.exit(1 if refusing.faults else 0)


if __name__ == "__main__":
    main()
