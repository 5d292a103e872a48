"""The repository as its documents see it: blocks of Markdown, paths, and the words of the sources."""

import bisect
import os
import pathlib
import re

MOST_CHARACTERS = 120
ROOT = pathlib.Path(__file__).resolve().parent.parent
TOPS = ("crates", "tools", "examples", "bindings", "share", ".ci")  # where sources are
BUILT = ("out", "target")  # folders that a build makes
INSTALLED = ("share/doc/", "share/man/")  # where tools/install puts more than share has

CHUNK = re.compile(r"[\w.*/~$-]+")
ENDINGS = "antt|c|h|java|lisp|md|py|rs|rt|svg|toml|txt"
FILE = re.compile(rf"(?<![\w./*-])(?!self\.)[A-Za-z_][\w-]*\.(?:{ENDINGS})(?![\w/(-]|\.\w)")
SPAN = re.compile(r"`([^`]+)`")
LINK = re.compile(r"\]\(([^)\s]+)[^)]*\)|(?:src|href)=\"([^\"]+)\"|^\[[^]]+\]: +(\S+)", re.M)
OPTION = re.compile(r"(?<![\w-])--[a-z][\w-]*")
NAME = re.compile(r"(?<!\w)[A-Za-z_]\w*(?:\.\.)?")
ITEM = re.compile(r" *(?:[-*+]|\d+[.)]) +")
WORD = re.compile(r"[A-Za-z_]+(?:'[a-z]+)?")
COMMENTS = {".antt": r"--.*", ".c": r"(?s)/\*.*?\*/", ".h": r"(?s)/\*.*?\*/", ".rs": r"//.*", ".rt": r"//.*"}
# Spans of other people's commands and flags, and words of what they make.
OTHERS = re.compile(r"(?:apt-get|cargo|git|rattle-kit-\w+|rt)\b|-\w|https?:")
OUTSIDE = {"ASAN_OPTIONS", "detect_leaks", "Proof", "decls", "map_vec"}


def read(path):
    return (ROOT / path).read_text(encoding="utf-8", errors="replace")


def blanked(found):
    """As many blanks as were found, so that all else keeps its place."""
    return " " * len(found[0])


class Block:
    """A part of a page: prose (a paragraph, a heading or an item), a table's row, or a drawing."""

    def __init__(self, kind, first, text):
        self.kind, self.first, self.text = kind, first, text

    def line(self, at):
        """The number of the line with this character of the block."""
        return self.first + self.text.count("\n", 0, at)

    def words(self):
        """Lists of its words, each with where it is: of a row a list for each cell, of a drawing none."""
        text = re.sub(r"https?:\S+", blanked, LINK.sub(blanked, self.text))
        for part in re.finditer({"prose": r"(?s).+", "row": r"[^|]+", "drawing": r"(?!)"}[self.kind], text):
            yield [(it[0].lower(), part.start() + it.start()) for it in WORD.finditer(part[0])]


def blocks_of(text):
    """The blocks of a page of Markdown, in order."""
    blocks, kind, inside, fence = [], "", 0, ""  # inside: the column of the text of the item that is open
    for number, line in enumerate(text.split("\n"), 1):
        bare = line.lstrip(" ")
        deep, before, goes_on = len(line) - len(bare), kind, False
        if fence:
            kind, goes_on = "drawing", True
            fence = "" if bare.startswith(fence) else fence
        elif not bare:
            kind = "" if kind != "drawing" else kind
            continue
        elif bare.startswith(("```", "~~~")):
            kind, fence = "drawing", bare[:3]
        elif before != "prose" and deep >= inside + 4:
            kind, goes_on = "drawing", before == "drawing"
        elif bare.startswith("|"):
            kind = "row"
        else:
            item = ITEM.match(line)
            goes_on = before == "prose" and not item and not bare.startswith("#")
            if not goes_on:
                inside = len(item[0]) if item else min(inside, deep)
            kind = "prose"
        if goes_on:
            lines = blocks[-1].text.count("\n") + 1
            blocks[-1].text += "\n" * (number - blocks[-1].first - lines + 1) + line
        else:
            blocks.append(Block(kind, number, line))
        if bare.startswith("#") and kind == "prose":
            kind = ""
    return blocks


class Repository:
    """The files and folders of the repository, and the words of its sources."""

    def __init__(self):
        self.files, self.folders, self.paths = set(), set(), set()
        for folder, folders, files in os.walk(ROOT):
            at = os.path.relpath(folder, ROOT)
            folders[:] = [name for name in folders if name not in (".git", "__pycache__") + BUILT]
            self.folders |= {os.path.normpath(os.path.join(at, name)) for name in folders}
            self.files |= {os.path.normpath(os.path.join(at, name)) for name in files}
        self.paths = self.files | self.folders
        self.names = {os.path.basename(path) for path in self.files}
        self.crates = {path.split("/")[1] for path in self.files if path.startswith("crates/")}
        # The folders in crates, as specs, that no folder at the top has the name of.
        parts = (re.fullmatch(r"(?:crates|bindings)/[^/]+/([^/]+)", path) for path in self.folders)
        self.parts = {part[1] for part in parts if part} - self.folders
        self.sources = {}
        for path in sorted(self.files):
            is_source = path.split("/")[0] in TOPS and not path.endswith((".md", ".edit", ".img", ".svg"))
            if (is_source or path == "crates.txt") and path not in ("tools/check-docs", "tools/documents.py"):
                self.sources[path] = read(path)
        self.words, self.options = set(), set()
        for path, text in self.sources.items():
            comment = COMMENTS.get(os.path.splitext(path)[1])
            self.words.update(re.findall(r"\w+", re.sub(comment, " ", text) if comment else text))
            self.options.update(OPTION.findall(text))
        self.sorted = sorted(self.words)
        self.backwards = sorted(word[::-1] for word in self.words)

    def has(self, path):
        """Whether there is such a path, in which `*` is any name."""
        path = os.path.normpath(path)
        if "*" not in path:
            return path in self.paths
        pattern = re.compile(re.escape(path).replace(r"\*", "[^/]*"))
        return any(pattern.fullmatch(it) for it in self.paths)

    def has_part(self, path, crate="*"):
        """Whether a crate has such a path, perhaps without its ending."""
        path = os.path.normpath(path)
        owner = r"[^/]+" if crate == "*" else re.escape(crate)
        pattern = re.compile(rf"(?:crates|bindings)/{owner}/" + re.escape(path).replace(r"\*", "[^/]*") + r"(?:\.\w+)?")
        return any(pattern.fullmatch(it) for it in self.paths)

    def has_word(self, word):
        """Whether a source has a word, or one with this beginning (`a_`, `a..`), end (`_a`) or middle (`_a_`)."""
        begins, bare = word.endswith(("_", "..")), word.rstrip(".")
        if bare in self.words or bare in OUTSIDE:
            return True
        if begins and bare.startswith("_"):
            return any(bare in it for it in self.words)
        if not begins and not bare.startswith("_"):
            return False
        words, bare = (self.sorted, bare) if begins else (self.backwards, bare[::-1])
        at = bisect.bisect(words, bare)
        return at < len(words) and words[at].startswith(bare)


def paths_in(text):
    """What may be paths in a text: where each begins and ends, it, and it up to what is built, with `*` for a NAME."""
    for found in CHUNK.finditer(text):
        named = found[0].rstrip(".-")
        path = re.sub(r"^-[IL](?=\w)", "", named)
        is_cut = text.startswith(("\\", "$", "{", "<"), found.end())
        if "/" in path and "//" not in path and "$" not in path and not is_cut:
            parts = ["*" if re.fullmatch(r"[A-Z]{4,}", part) else part for part in path.split("/")]
            built = [k for k, part in enumerate(parts) if part in BUILT]
            yield found.start(), found.end(), named, "/".join(parts[: built[0]] if built else parts)


class Page:
    def __init__(self, name, repository):
        self.name, self.repository = name, repository
        self.folder = os.path.dirname(name)
        self.text = read(name)
        self.blocks = blocks_of(self.text)
        self.is_example = name.startswith("examples/")
        self.found = []

    def tell(self, line, said):
        self.found.append((self.name, line, said))

    def live(self):
        """The blocks whose paths and names have to be there: of a changelog what is not released, nor removed."""
        heads = {"## ": "", "### ": ""}
        for block in self.blocks:
            for head in heads:
                if block.text.startswith(head):
                    heads[head] = block.text[len(head) :]
            is_new = heads["## "] == "[Unreleased]" and heads["### "] != "Removed"
            if self.name != "CHANGELOG.md" or is_new:
                yield block

    def look(self):
        for block in self.blocks:
            self.look_at_lines(block)
            self.look_at_links(block)
        for block in self.live():
            self.look_at_paths(block)
            self.look_at_files(block)
            self.look_at_names(block)

    def look_at_lines(self, block):
        for number, line in enumerate(block.text.split("\n"), block.first):
            if block.kind == "prose" and len(line) > MOST_CHARACTERS:
                self.tell(number, "%d characters" % len(line))

    def links(self, block):
        """Where a block has a link that leads to a file, and the file's path."""
        for found in LINK.finditer(block.text if block.kind != "drawing" else ""):
            target = next(it for it in found.groups() if it).partition("#")[0]
            if target and not re.match(r"[a-z]+:", target):
                yield found, os.path.normpath(os.path.join(self.folder, target))

    def look_at_links(self, block):
        for found, target in self.links(block):
            if target not in self.repository.paths:
                self.tell(block.line(found.start()), "a link leads to no file: " + target)

    def has_path(self, path, rest):
        """Whether there is a path, before this rest of the text. Of one whose first folder is not ours nobody says."""
        first = path.split("/")[0]
        if self.is_example and (first == "." or os.path.join(self.folder, first) in self.repository.folders):
            made = re.findall(r"(?:-o|>) +(\S+)", self.text)
            return self.repository.has(os.path.join(self.folder, path)) or os.path.normpath(path) in made
        if first in self.repository.folders:
            return self.repository.has(path) or path.startswith(INSTALLED)
        if first in self.repository.parts:
            owner = re.match(r"`?\s+of\s+`?(\w+)", rest)
            is_named = owner and owner[1] in self.repository.crates
            return self.repository.has_part(path, owner[1] if is_named else "*")
        return True

    def look_at_paths(self, block):
        # A link is looked at by itself.
        text = LINK.sub(blanked, block.text)
        for start, end, named, path in paths_in(text):
            if not self.has_path(path, text[end:]):
                self.tell(block.line(start), "there is no " + named)

    def look_at_files(self, block):
        if block.kind == "drawing":
            return
        names, texts = self.repository.names, []
        if self.is_example:
            inside = [path for path in self.repository.files if path.startswith(self.folder + "/")]
            shared = [path for path in self.repository.files if "/" not in path or "/include/" in path]
            names = {os.path.basename(path) for path in inside + shared}
            texts = [self.repository.sources.get(path, "") for path in inside]
        for found in FILE.finditer(block.text):
            if found[0] not in names and not any(found[0] in text for text in texts):
                self.tell(block.line(found.start()), "there is no file " + found[0])

    def look_at_names(self, block):
        if block.kind == "drawing":
            return
        for span in SPAN.finditer(block.text):
            if OTHERS.match(span[1]):
                continue
            text = CHUNK.sub(lambda it: blanked(it) if "/" in it[0] else it[0], span[1])
            words = [it for it in OPTION.findall(text) if it not in self.repository.options]
            text = OPTION.sub(blanked, text)
            words += [it for it in NAME.findall(text) if not self.repository.has_word(it)]
            for word in words:
                self.tell(block.line(span.start()), "no source has %s (`%s`)" % (word, " ".join(span[1].split())))
