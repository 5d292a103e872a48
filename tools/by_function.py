"""The work of tools/timed-from-c --functions: in which functions the instructions of a call are.

usage: by_function.py PROGRAM
"""
import re
import subprocess
import sys
import tempfile
from pathlib import Path

CALLS = 20000
# A heap of half the words that an edition-one heap may have: the other pages are fresh.
WORDS = [str(CALLS), str((1 << 19) // 3), "1", "1"]
LOOPS = {"read": "a read", "write": "a write", "alloc": "an allocation", "touch": "a touch of a built page"}
# a line of callgrind_annotate: instructions, perhaps their share, and the function
LINE = re.compile(r"\s*([\d,]+)\s+(?:\([^)]*\)\s+)?\S*?:(\S.*?)(?: \[[^]]*\])?$")
HASH = re.compile(r"::<#[0-9a-f]+>")


def counts(program, loop, folder):
    """The instructions of a run, by function."""
    to = Path(folder) / loop
    grind = ["valgrind", "--tool=callgrind", f"--callgrind-out-file={to}", program, *WORDS, loop]
    subprocess.run(grind, check=True, capture_output=True)
    told = subprocess.run(["callgrind_annotate", "--threshold=100", to], check=True, capture_output=True, text=True)
    found = {}
    for line in told.stdout.splitlines():
        if row := LINE.match(line):
            name = HASH.sub("", row[2])
            found[name] = found.get(name, 0) + int(row[1].replace(",", ""))
    return found


def main():
    with tempfile.TemporaryDirectory(prefix="by-function-") as folder:
        before = counts(sys.argv[1], "none", folder)
        for loop, title in LOOPS.items():
            after = counts(sys.argv[1], loop, folder)
            rows = [((after.get(it, 0) - before.get(it, 0)) / CALLS, it) for it in {*before, *after}]
            print(f"{sum(cost for cost, _ in rows):8.1f}  {title}", flush=True)
            for cost, name in sorted(rows, reverse=True):
                if cost >= 0.5:
                    print(f"{cost:12.1f}  {name}", flush=True)


try:
    main()
except (subprocess.CalledProcessError, OSError) as fault:
    sys.exit(f"timed-from-c: {fault}")
