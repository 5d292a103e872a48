"""The work of tools/timed-calls and tools/timed-from-c: builds the peer, runs both, and prints what a call costs.
tools/timed-collection builds and runs by it too.

usage: timed.py PROGRAM COUNT ROUNDS INSTRUCTIONS TOUCHES      the last two are yes or no: whether instructions are
counted, and whether the program has the loop of touches too
"""
import os
import re
import subprocess
import sys
import tempfile
from pathlib import Path

HERE = Path(__file__).resolve().parent
# how many objects of three words a heap and its fresh pages have room for, and how many objects further a far one is
OBJECTS = (1 << 20) // 3
FRESH = 4096 * (64 // 3)
FAR = 216019
COLLECTED = re.compile(r"Collected : (\d+)")


def loops(count, touches):
    """What each row is called, its loop, the words before the name of the loop, and how many calls these ask for."""
    heaps = -(-count // FRESH)
    each = -(-count // heaps)
    near, far = [count, OBJECTS, 1, 1], [count, OBJECTS, FAR, 1]
    rows = [
        ("a read, the next object", "read", near, count),
        ("a read, a far object", "read", far, count),
        ("a write, the next object", "write", near, count),
        ("a write, a far object", "write", far, count),
        ("an allocation", "alloc", [each, 1, 0, heaps], each * heaps),
    ]
    if touches:
        rows.append(("a touch of a built page", "touch", near, count))
    return rows


class Fault(Exception):
    pass


def build(folder, source, *options):
    """The peer of this source in tools/, with these options of the compiler."""
    peer = Path(folder) / "peer"
    words = [*options, "-C", "debuginfo=0", "--edition", "2021", "-o", str(peer), str(HERE / source)]
    if subprocess.run(["rustc", *words]).returncode:
        raise Fault("rustc did not build the peer")
    return peer


def run(words):
    """What a run printed, and its processor time in nanoseconds."""
    words = [str(word) for word in words]
    ran = subprocess.Popen(words, stdin=subprocess.DEVNULL, stdout=subprocess.PIPE)
    out = ran.stdout.read().decode()
    _, status, used = os.wait4(ran.pid, 0)
    ran.returncode = os.waitstatus_to_exitcode(status)
    if ran.returncode:
        raise Fault(f"{' '.join(words)}: status {ran.returncode}")
    return out, (used.ru_utime + used.ru_stime) * 1e9


def instructions(words):
    """How many instructions a run took."""
    words = ["valgrind", "--tool=callgrind", "--callgrind-out-file=/dev/null", *(str(word) for word in words)]
    ran = subprocess.run(words, stdin=subprocess.DEVNULL, capture_output=True, text=True)
    found = COLLECTED.search(ran.stderr)
    if ran.returncode or not found:
        raise Fault(f"{' '.join(words)}: status {ran.returncode}, {ran.stderr.strip()[-200:]!r}")
    return int(found[1])


def check(programs, name, words, calls):
    """Both print the same line, and each call answered Ok."""
    told = {run([program, *words, name])[0] for program in programs}
    if len(told) != 1 or not told.pop().startswith(f"{name} calls {calls} "):
        raise Fault(f"{name}: not {calls} calls with the same answers of both")


def costs(programs, name, words, calls, take, rounds):
    """What a call of each program costs, if `take` measures a run: the least with the calls, less the least without."""
    runs = [[program, *words, loop] for program in programs for loop in (name, "none")]
    least = [min(each) for each in zip(*([take(it) for it in runs] for _ in range(rounds)))]
    return [(least[0] - least[1]) / calls, (least[2] - least[3]) / calls]


def columns(program, peer):
    """The costs and their ratio; without one if noise took away all that the peer's calls cost."""
    ratio = f"{program / peer:6.2f}" if peer > 0 else "     -"
    return f"  {program:9.1f} {peer:9.1f} {ratio}"


def main():
    program, count, rounds = Path(sys.argv[1]).resolve(), int(sys.argv[2]), int(sys.argv[3])
    units = [("instructions", instructions, 1)] if sys.argv[4] == "yes" else []
    if rounds:
        units.append(("nanoseconds", lambda words: run(words)[1], rounds))
    with tempfile.TemporaryDirectory(prefix="timed-calls-") as folder:
        # the compiler's usual optimisation for any 64-bit processor
        programs = [program, build(folder, "timed_calls_peer.rs", "-O")]
        print(" " * 26 + "".join(f"{unit + ' a call':>28}" for unit, _, _ in units))
        print(" " * 26 + "".join(f"  {'program':>9} {'peer':>9} {'ratio':>6}" for _ in units), flush=True)
        for title, name, words, calls in loops(count, sys.argv[5] == "yes"):
            check(programs, name, words, calls)
            cost = [columns(*costs(programs, name, words, calls, take, times)) for _, take, times in units]
            print(f"{title:26}" + "".join(cost), flush=True)


if __name__ == "__main__":
    try:
        main()
    except Fault as fault:
        sys.exit(f"timed: {fault}")
