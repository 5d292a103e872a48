#!/usr/bin/env python3
"""Has OpenJDK collect a heap, copies it before and after, and has the results judged. See README.md.

    ./run.py                                          # JDK 17, a full collection of SerialGC
    ./run.py --collection g1-young --shape mixed      # a young collection of G1 by four workers
    ./run.py --broken                                 # and the results, broken in eleven ways
    ./run.py --all > results.md                       # all rows, those of README.md too

The status is 0 only if all was judged as it should be."""

import argparse
import pathlib
import subprocess
import sys

sys.dont_write_bytecode = True
import convert  # noqa: E402
from broken import BROKEN, Broken, lost  # noqa: E402
from convert import Row, hf  # noqa: E402
from judge import Fault, accepted, judge  # noqa: E402
from rawheap import Copy  # noqa: E402

HERE = pathlib.Path(__file__).resolve().parent
JDK_17 = "/usr/lib/jvm/java-17-openjdk-amd64"

# No compressed references, so a reference is a word. No buffers of threads, so eden is a row of objects without gaps.
COMMON = """-XX:-UseCompressedOops -XX:-UseCompressedClassPointers -XX:-UseTLAB -XX:+IgnoreUnrecognizedVMOptions
    -Xshare:off -XX:-ScavengeBeforeFullGC"""
WIDE = "-Xms96m -Xmx96m -Xmn48m "
NARROW = "-Xms96m -Xmx96m -Xmn8m -XX:SurvivorRatio=2 -XX:MaxTenuringThreshold=2 -XX:-UseAdaptiveSizePolicy "
FOUR = "-XX:ParallelGCThreads=4 -XX:-UseDynamicNumberOfGCThreads "
DEAD_WOOD = "-XX:MarkSweepAlwaysCompactCount=1000 -XX:MarkSweepDeadRatio=20"
TRIES = 20
# All in a pause. A degenerated collection copies all regions with garbage, if its reserve has room for what lives.
# So no dead object is left among the live ones.
SHENANDOAH = ("-Xms48m -Xmx48m -XX:+UnlockExperimentalVMOptions -XX:+UnlockDiagnosticVMOptions -XX:+UseShenandoahGC "
              "-XX:ShenandoahGCMode=passive -XX:-ExplicitGCInvokesConcurrent -XX:ShenandoahRegionSize=1m ")
COPY_ALL = "-XX:ShenandoahEvacReserve=60 -XX:ShenandoahGarbageThreshold=0 "
G1 = "-XX:+UseG1GC -XX:G1HeapRegionSize=1m -XX:InitiatingHeapOccupancyPercent=100 -XX:MarkSweepDeadRatio=0 "

# The flags, and whether the collection slides live objects. One whose name ends in `young` copies young ones, and the
# old ones stay; it comes when there is no room, as that of Shenandoah which is degenerated.
COLLECTIONS = {
    "serial": (WIDE + "-XX:+UseSerialGC -XX:MarkSweepAlwaysCompactCount=1", True),
    "serial-dead-wood": (WIDE + "-XX:+UseSerialGC " + DEAD_WOOD, False),
    "parallel": (WIDE + "-XX:+UseParallelGC " + FOUR, True),
    "g1": (WIDE + G1 + "-XX:ParallelGCThreads=1", True),
    "shenandoah": (SHENANDOAH + "-XX:ParallelGCThreads=1", True),
    "serial-young": (NARROW + "-XX:+UseSerialGC", False),
    "parallel-young": (NARROW + "-XX:+UseParallelGC " + FOUR, False),
    "g1-young": (NARROW + G1 + FOUR, False),
    "shenandoah-degenerated": (SHENANDOAH + COPY_ALL + FOUR, False),
}


def build(jdk, room):
    room.mkdir(parents=True, exist_ok=True)
    subprocess.run(["cc", "-std=c11", "-O1", "-Wall", "-shared", "-fPIC", "-o", room / "agent.so", HERE / "agent.c",
                    "-I%s/include" % jdk, "-I%s/include/linux" % jdk, "-ldl"], check=True)
    subprocess.run([jdk + "/bin/javac", "-nowarn", "-XDignore.symbol.file", "-d", room, HERE / "Zoo.java"], check=True,
                   capture_output=True)


def version(jdk):
    """17, say."""
    release = (pathlib.Path(jdk) / "release").read_text()
    return release.split('JAVA_VERSION="')[1].split(".")[0].split('"')[0]


def collect(jdk, room, name, shape, a):
    """Runs Zoo.java. Its agent writes before.raw and after.raw into the room. On a busy machine one worker of four may
    copy all before another one wakes up; then the run is made again."""
    kind = "young" if name.endswith(("young", "degenerated")) else "full"
    flags = COLLECTIONS[name][0].split() + COMMON.split() + ["-Xlog:gc*,gc+phases*=trace:file=%s/gc.log" % room]
    java = [jdk + "/bin/java", "-agentpath:%s/agent.so" % room, "-cp", room, *flags]
    count = a.objects or (60000 if kind == "young" else 20000)
    java += ["Zoo", room / "agent.so", room, shape, kind, count, a.live, a.seed]
    for _ in range(TRIES):
        done = subprocess.run([str(word) for word in java], capture_output=True, text=True)
        if done.returncode:
            sys.exit("java: status %d\n%s%s" % (done.returncode, done.stdout, done.stderr))
        if "g1-young" != name or copying_workers(room) > 1:
            return


def copying_workers(room):
    """How many workers of G1 copied objects in the last collection, by the JVM's log. None if it does not say."""
    lines = (room / "gc.log").read_text().splitlines()
    rows = [lines[i + 1] for i, text in enumerate(lines) if "Copied Bytes" in text]
    return sum(word not in ("0", "-") for word in rows[-1].split(")")[-1].split()) if rows else None


class Judges:
    """Our own model, and the program if there is one. They must agree."""

    def __init__(self, room, program):
        self.room, self.program = room, program
        self.wrong = self.same = self.unknown = 0
        self.heaps = {}  # those of the images that were accepted

    def asks(self, form, image, left, yes):
        """What they say of two files in the room. Form: the program's command. `yes`: whether they should say yes."""
        text, was = self.own(form, image, left)
        if was != yes:
            self.wrong += 1
            text += " WRONG"
        return text + (self.program_says(form, image, left, text, was) if self.program else "")

    def own(self, form, image, left):
        try:
            if image not in self.heaps:
                self.heaps[image] = accepted(self.room / image)
            return judge(self.heaps[image], self.room / left, "--whole" in form), True
        except Fault as fault:
            return str(fault), False

    def program_says(self, form, image, left, text, yes):
        words = [self.program, *form.split(), "--large", image, left]
        done = subprocess.run(words, cwd=self.room, capture_output=True, text=True)
        if done.returncode == 2:
            self.unknown += 1
            return ""
        answer = (done.stdout + done.stderr).strip().removeprefix("compressor: ").replace("\n", ", ")
        if (answer, done.returncode) == (text, 0 if yes else 1):
            self.same += 1
            return ""
        self.wrong += 1
        return " WRONG, the program says " + answer

    def sum_up(self):
        if self.program:
            print("\nThe program said the same %d times. %d times it did not know the command. %d answers are wrong." % (
                self.same, self.unknown, self.wrong))


def write(room, files):
    for name, data in files.items():
        (room / name).write_bytes(data)


def line(*cells):
    print("| %s |" % " | ".join(str(cell) for cell in cells), flush=True)


class Capture:
    """A collection that was copied, and its files in the room."""

    def __init__(self, room, judges, jdk, name, shape):
        self.room, self.judges, self.slides = room, judges, COLLECTIONS[name][1]
        workers = copying_workers(room)
        self.title = (version(jdk), name + (", copied by %d" % workers if workers else ""), shape)
        self.before = Row(Copy(room / "before.raw"), hf.FROM_SPACE)
        self.after = Row(Copy(room / "after.raw"), hf.TO_SPACE)
        self.marked = convert.survivors(self.before, self.after)
        judges.heaps.clear()
        write(room, {"heap.img": convert.image(self.before, self.marked, self.before.words),
                     "masked.img": convert.image(self.before, self.marked, self.before.masked())})

    def answers_if_slid(self, after, yes):
        """What is said of what is left as a dump, in which the collector's own writes are entries, and by words. For
        words, and moved heaps, the words that the collector writes are 0 in both files."""
        write(self.room, {"left.dump": convert.dump(after), "left.words": convert.words(after)})
        return (self.judges.asks("audit", "heap.img", "left.dump", yes),
                self.judges.asks("audit --words", "masked.img", "left.words", yes))

    def answer_if_moved(self, after, yes):
        write(self.room, {"left.moved": convert.moved(after, convert.places(self.before, self.marked, after))})
        return self.judges.asks("moved", "masked.img", "left.moved", yes)

    def show(self):
        places = convert.places(self.before, self.marked, self.after)
        real = dict(zip(self.after.index, self.after.objects))
        went = sum(self.before.objects[k].address != real[place].address for k, place in zip(self.marked, places))
        line(*self.title, len(self.before.objects), self.before.length, len(self.marked), went,
             len(self.after.objects) - len(self.marked), *self.answers_if_slid(self.after, self.slides),
             self.answer_if_moved(self.after, True))

    def show_broken(self):
        """Breaks what is left in each way. If the collection does not slide, only the moved heap is judged."""
        empty = ("", "") if self.slides else ()
        heading(("What is wrong", *HEAD[-1 - len(empty):]))
        for break_it, (if_slid, if_moved) in BROKEN.items():
            copy = Copy(self.room / "after.raw")
            what = break_it(Broken(self.before, copy))
            if what is None:
                continue
            after = Row(copy, hf.TO_SPACE)
            slid = self.answers_if_slid(after, if_slid) if self.slides else ()
            line(what, *slid, self.answer_if_moved(after, if_moved))
            if break_it is lost:
                line("the same, marked by what is left", *empty, self.marked_by(after))
        if self.slides:
            self.show_unbuilt()

    def marked_by(self, after):
        """With the marks of what is left the image itself is refused."""
        marked = convert.survivors(self.before, after)
        write(self.room, {"lost.img": convert.image(self.before, marked, self.before.masked()),
                          "lost.moved": convert.moved(after, convert.places(self.before, marked, after))})
        return self.judges.asks("moved", "lost.img", "lost.moved", False)

    def show_unbuilt(self):
        write(self.room, {"left.dump": convert.unbuilt(self.after)})
        for form, yes in (("audit", True), ("audit --whole", False)):
            said = self.judges.asks(form, "heap.img", "left.dump", yes)
            line("no page is in the dump, and it is judged by `%s`" % form, said, "", "")


def run(a, jdk, name, shape, judges):
    if not a.no_run:
        collect(jdk, a.room, name, shape, a)
    return Capture(a.room, judges, jdk, name, shape)


def run_all(a, judges):
    heading(HEAD)
    for name in COLLECTIONS:
        for shape in SHAPES:
            run(a, a.jdk, name, shape, judges).show()
        if a.other_jdk:
            run(a, a.other_jdk, name, "mixed", judges).show()
    for name in ("serial", "g1-young"):
        print("\n`%s`, mixed:\n" % name)
        run(a, a.jdk, name, "mixed", judges).show_broken()


def heading(cells):
    line(*cells)
    line(*["---"] * len(cells))


SHAPES = ("graph", "list", "mixed")
HEAD = ("JDK", "collection", "heap", "objects", "words", "marked", "elsewhere", "fillers", "`audit`",
        "`audit --words`", "`moved`")


def main():
    a = argparse.ArgumentParser(description=__doc__, formatter_class=argparse.RawDescriptionHelpFormatter)
    a.add_argument("--jdk", default=JDK_17)
    a.add_argument("--other-jdk", default="", help="with --all: a second one, for the mixed heaps")
    a.add_argument("--collection", choices=COLLECTIONS, default="serial")
    a.add_argument("--shape", choices=SHAPES, default="mixed")
    a.add_argument("--objects", type=int, default=0, help="else 20,000, and 60,000 for a young collection")
    a.add_argument("--live", type=int, default=50, help="how many of a hundred are kept")
    a.add_argument("--seed", type=int, default=7)
    a.add_argument("--broken", action="store_true", help="break what is left")
    a.add_argument("--all", action="store_true")
    a.add_argument("--program", default="", help="the compressor, to judge too")
    a.add_argument("--room", type=pathlib.Path, default=pathlib.Path("out"), help="the folder for all that is made")
    a.add_argument("--no-run", action="store_true", help="take the copies that are in the room")
    a = a.parse_args()
    a.room = a.room.resolve()
    judges = Judges(a.room, a.program and str(pathlib.Path(a.program).resolve()))
    if not a.no_run:
        build(a.jdk, a.room)
    if a.all:
        run_all(a, judges)
    elif a.broken:
        run(a, a.jdk, a.collection, a.shape, judges).show_broken()
    else:
        heading(HEAD)
        run(a, a.jdk, a.collection, a.shape, judges).show()
    judges.sum_up()
    sys.exit(1 if judges.wrong else 0)


if __name__ == "__main__":
    main()
