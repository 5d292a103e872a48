"""The work of `tools/also-must-fail --together`.

usage: together.py ROOM CRATE

ROOM is a copy of the checkout's crates, in which the wrong bodies of CRATE stand in must-fail/. Edits of different
functions are made at once, and the crate is checked once, past open goals. A function is proved by its own body and by
what it calls promises, so an edit is refused if the check says what it could not prove in the function that it edits.
Where it says only that the function calls another that is not proved, or where two edits are of one function, they wait
for the next round. An edit that no function holds is tried alone. Prints a line for each edit that is not refused, or
cannot be made. Status: 0 if all are refused, else 1.
"""
import re
import subprocess
import sys
from pathlib import Path

ROOM = Path(sys.argv[1])
NAME = sys.argv[2]
CRATE = ROOM / "crates" / NAME
FUNCTION = re.compile(r'^ *(?:pub(?:\([a-z]+\))? )?(?:const )?(?:extern "C" )?fn ([A-Za-z0-9_]+)', re.M)
REPORT = re.compile(r"^(?:fn|impl|struct|enum|trait) (\S+): (.*)$", re.M)
# What the check says of a function some goal of which has no proof.
PROVED = ("proved", "no holes")
OWN = re.compile("it stands on|did not prove|which antt refuses")
# One check tries so many edits at most: past that the failed searches take longer than another start.
MOST = 40


class Edit:
    """A wrong body: pairs of old and new texts in one file."""

    def __init__(self, path):
        self.name = path.stem
        self.file, self.pairs, old = None, [], None
        for line in path.read_text().splitlines():
            if line.startswith("file: "):
                self.file = CRATE / line[6:]
            elif line.startswith("old: "):
                old = line[5:]
            elif line.startswith("new: "):
                self.pairs.append((old, line[5:]))

    def applied(self, text):
        """The text with this edit, or None if an old text does not stand in it once."""
        for old, new in self.pairs:
            if text.count(old) != 1:
                return None
            text = text.replace(old, new)
        return text

    def function(self):
        """The path of the function that holds the edit, or None."""
        text = self.file.read_text()
        old = self.pairs[0][0]
        end = text.find(old) + len(old)
        held = [m.group(1) for m in FUNCTION.finditer(text) if m.start() <= end]
        if self.file.suffix != ".rt" or not held:
            return None
        parts = self.file.relative_to(CRATE / "src").with_suffix("").parts
        return "::".join((NAME,) + (() if parts == ("lib",) else parts)), held[-1]


def check():
    """What a check says of each function of the crate, and its last line."""
    run = subprocess.run(["rt", "check", "--allow-holes"], cwd=CRATE, capture_output=True, text=True)
    out = run.stdout + run.stderr
    return dict(REPORT.findall(out)), re.search("^(logic|holes)=", out, re.M) is not None


def reports_of(edit, said):
    module, name = edit.function()
    return [why for path, why in said.items() if path.startswith(module + "::") and name in path[len(module) + 2 :].split("::")]


def is_refused(edit, said):
    """Whether the function has no proof, for a reason of its own."""
    return any(OWN.search(why) for why in reports_of(edit, said))


def is_hidden(edit, said):
    return any("it calls" in why or "it waits" in why for why in reports_of(edit, said))


def tried(edits):
    """Makes these edits, checks, and takes them back. None if the check came to no result."""
    texts = {}
    for edit in edits:
        texts.setdefault(edit.file, edit.file.read_text())
    now = dict(texts)
    for edit in edits:
        now[edit.file] = edit.applied(now[edit.file])
    try:
        for file, text in now.items():
            file.write_text(text)
        said, ended = check()
    finally:
        for file, text in texts.items():
            file.write_text(text)
    return said if ended else None


def alone(edit):
    said = tried([edit])
    if said is None:
        return "comes to no result"
    return None if any(why not in PROVED for why in said.values()) else "is not refused"


def fits(edit, batch):
    text = edit.file.read_text()
    for other in batch:
        if other.file == edit.file:
            text = other.applied(text) or text
    return edit.applied(text) is not None


def main():
    edits = [Edit(path) for path in sorted((CRATE / "must-fail").glob("*.edit"))]
    wrong = {edit.name: "cannot be made" for edit in edits if edit.applied(edit.file.read_text()) is None}
    waiting = [edit for edit in edits if edit.name not in wrong]
    while waiting:
        batch, held = [], set()
        for edit in waiting:
            function = edit.function()
            if function and function not in held and len(batch) < MOST and fits(edit, batch):
                batch.append(edit)
                held.add(function)
        said = tried(batch) if len(batch) > 1 else None
        done = [edit for edit in batch if said and is_refused(edit, said)]
        hidden = [edit for edit in batch if said and edit not in done and is_hidden(edit, said)]
        if not done:
            # No edit was settled by others' company: each goes alone.
            for edit in waiting:
                why = alone(edit)
                if why:
                    wrong[edit.name] = why
            break
        for edit in batch:
            if edit not in done and edit not in hidden:
                why = alone(edit)
                if why:
                    wrong[edit.name] = why
        waiting = [edit for edit in waiting if edit not in batch or edit in hidden]
        print(f"{NAME}: {len(edits) - len(waiting) - len(wrong)} of {len(edits)} refused so far", flush=True)
    for name, why in wrong.items():
        print(f"{NAME}: {name} {why}", flush=True)
    print(f"{NAME}: {len(edits) - len(wrong)} of {len(edits)} refused", flush=True)
    return 1 if wrong else 0


sys.exit(main())
