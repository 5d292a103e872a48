"""What the benchmarks told: medians and ratios, the table, the last line."""
import functools
import json
import math
import statistics

ONLY_ACCESS = ("grid", "counter")  # in all other programs each collector has to collect
DIE_YOUNG = ("gcbench", "trees", "threads")  # where most objects die before the next collection
# Whose processor time is compared, with whose, and what is wanted: at most so much.
WANTED = (("rest", "boehm", 0.80), ("rest", "mark-slide", 1.05), ("young", "boehm", None),
          ("young", "young-plain", None))
WANTED_PAUSE = 0.50
NAMES = {"rest": "at rest", "young": "young", "boehm": "Boehm", "mark-slide": "plain mark and slide",
         "young-plain": "its plain peer"}


class Wrong(Exception):
    pass


def with_medians(told):
    """With its median pause, by the clock and of the processor; 0 if it has none, or if that was not told."""
    by_clock, of_processor = ([it[k] for it in told["pauses"] if len(it) > k] or [0] for k in (1, 2))
    return {**told, "middle": statistics.median(by_clock), "worked": statistics.median(of_processor)}


class Results:
    def __init__(self, programs, back_ends, quick):
        self.programs, self.back_ends, self.quick = programs, back_ends, quick
        self.rows = {}  # (program, back end): what each round told
        self.sums = {}  # program: which back ends told each check sum
        self.faults = []
        self.unproved = False

    @classmethod
    def read(cls, asked):
        """What --times wrote, of the programs and back ends that are asked for."""
        try:
            told = json.loads(asked["from"].read_text())
            programs = [it for it in asked["only"] or told["programs"] if it in told["programs"]]
            back_ends = [it for it in asked["with"] or told["back_ends"] if it in told["back_ends"]]
            results = cls(programs, back_ends, told["quick"])
            results.unproved, results.faults = told["unproved"], told["faults"]
            for row in told["results"]:
                if row["program"] in programs and row["back_end"] in back_ends:
                    results.rows[row["program"], row["back_end"]] = [with_medians(told) for told in row["rounds"]]
        except (OSError, ValueError, LookupError, TypeError) as it:
            raise Wrong(f"{asked['from']} is not what --times writes: {it}")
        if not results.rows:
            raise Wrong(f"nothing of that is in {asked['from']}")
        return results

    def written(self):
        """All of it as JSON; medians and ratios are there for the reader."""
        told = {"quick": self.quick, "unproved": self.unproved, "faults": self.faults}
        told.update(programs=self.programs, back_ends=self.back_ends, results=[])
        for (program, it), rows in self.rows.items():
            medians = {what: self.median(program, it, what) for what in rows[0] if what not in ("sum", "pauses")}
            over = {other: self.ratio(program, it, other) for _, other, _ in WANTED}
            told["results"].append(dict(program=program, back_end=it, medians=medians, over=over, rounds=rows))
        return json.dumps(told, indent=1) + "\n"

    def add(self, program, it, told, unproved):
        """What one more run told; a text, if it failed."""
        self.unproved |= unproved
        if isinstance(told, str):
            self.faults.append(f"{program}, {it}: {told}")
            return
        self.rows.setdefault((program, it), []).append(with_medians(told))
        self.sums.setdefault(program, {}).setdefault(told["sum"], set()).add(it)

    def judge(self):
        """Adds to the faults: check sums that differ, and collectors that did not collect."""
        for program, sums in self.sums.items():
            if len(sums) > 1:
                told = "; ".join(f"{value} of {', '.join(sorted(of))}" for value, of in sums.items())
                self.faults.append(f"{program}: the check sums differ: {told}")
        for (program, it), rows in self.rows.items():
            if it != "by-hand" and program not in ONLY_ACCESS and any(row["collections"] == 0 for row in rows):
                self.faults.append(f"{program}, {it}: nothing was collected")

    def median(self, program, it, what):
        rows = self.rows.get((program, it))
        return statistics.median(row[what] for row in rows) if rows else None

    def ratio(self, program, a, b, what="processor"):
        """The median of the rounds' ratios; None if there is none."""
        pairs = zip(self.rows.get((program, a), ()), self.rows.get((program, b), ()))
        ratios = [one[what] / other[what] for one, other in pairs if other[what]]
        return statistics.median(ratios) if ratios else None

    def without_collections(self, program, a, b):
        """The median of the rounds' ratios: the processor time of the first one but for its collections, over that of
        the second one; None if there is none."""
        pairs = zip(self.rows.get((program, a), ()), self.rows.get((program, b), ()))
        return statistics.median([(one["processor"] - one["collections"] * one["collection"]) / other["processor"]
                                  for one, other in pairs] or [0]) or None

    def mean_ratio(self, a, b, what="processor", collecting=False, among=None):
        """The geometric mean, over all programs that both ran, or those of them in which both collect, and how many
        these are; None if there are none. Of what is left without collections if that is what is asked."""
        ratios = [self.without_collections(program, a, b) if what == "without" else self.ratio(program, a, b, what)
                  for program in among or self.programs
                  if not collecting or all(self.median(program, it, "collections") for it in (a, b))]
        ratios = [it for it in ratios if it]
        return (math.exp(statistics.fmean(map(math.log, ratios))), len(ratios)) if ratios else None


HEAD = ("program", "back end", "processor", "over boehm", "over plain", "wall", "collections", "of one", "mean pause",
        "median", "longest", "memory")
TIMES = ("collection", "pause", "middle", "longest")  # of a row, where there are collections


def table(results):
    rows = [HEAD]
    for program in results.programs:
        for it in results.back_ends:
            if (program, it) not in results.rows:
                continue
            over = [results.ratio(program, it, other) for other in ("boehm", "mark-slide")]
            tell = functools.partial(results.median, program, it)
            each = [f"{tell(what):.2f}" if tell("collections") else "-" for what in TIMES]
            rows.append((program, it, f"{tell('processor'):.1f}", *("-" if x is None else f"{x:.2f}" for x in over),
                         f"{tell('wall'):.1f}", f"{tell('collections'):.0f}", *each, f"{tell('memory'):.1f}"))
    return rows


def printed(rows, as_markdown):
    if as_markdown:
        lines = ["| " + " | ".join(row) + " |" for row in rows]
        lines.insert(1, "|---|---|" + "--:|" * (len(HEAD) - 2))
        return "\n".join(lines)
    widths = [max(len(row[k]) for row in rows) for k in range(len(HEAD))]
    lines = []
    for row in rows:
        cells = [cell.ljust(width) if k < 2 else cell.rjust(width) for k, (cell, width) in enumerate(zip(row, widths))]
        lines.append("  ".join(cells).rstrip())
    return "\n".join(lines)


def compared(results, one, other, wanted):
    """What the geometric means of their processor times are; None if there are none."""
    both, of_all = (results.mean_ratio(one, other, collecting=only) for only in (True, False))
    if not of_all:
        return None
    count = len(results.programs)
    where = f"{both[0]:.2f} where both collect ({both[1]} of {count} programs), " if both else ""
    every = f"{of_all[0]:.2f} in {'all ' if of_all[1] == count else ''}{of_all[1]}"
    aim = f" (wanted {wanted:.2f})" if wanted else ""
    return f"{NAMES[one]} over {NAMES[other]} {where}{every}{aim}"


def summary(results):
    said = [compared(results, *row) for row in WANTED]
    mean = results.mean_ratio("rest-4", "rest-copy", "pause", collecting=True)
    if mean:
        said.append(f"pauses with four threads over one {mean[0]:.2f} in {mean[1]} (wanted {WANTED_PAUSE:.2f})")
    for it in ("young", "young-fixed"):
        by_clock, of_processor = (results.mean_ratio(it, "rest", what, collecting=True, among=DIE_YOUNG)
                                  for what in ("middle", "worked"))
        if by_clock and of_processor:
            said.append(f"median pauses of {it} over those at rest {by_clock[0]:.2f} by the clock, "
                        f"{of_processor[0]:.2f} of the processor, in {by_clock[1]}")
    for it in ("rest", "young"):
        mean = results.mean_ratio(it, "boehm", "without", collecting=True)
        if mean:
            said.append(f"{NAMES[it]} without its collections over Boehm {mean[0]:.2f} in {mean[1]}")
    remarks = [text for so, text in ((results.unproved, "the library is NOT PROVED"), (results.quick, "quick")) if so]
    said = "; ".join(filter(None, said)) or "none"
    return f"geometric means: {said}" + (f" [{'; '.join(remarks)}]" if remarks else "")
