"""Reads a header for C: the names that it declares, or its page of the manual.

usage: manual.py --names HEADER
       manual.py HEADER VERSION

Writes to standard output. The names are those of the functions, sorted, one a line. The page is compressor.3, all of it
text of the header: each comment that begins a line stands behind the declarations that follow it, as its text.
"""
import re
import sys
from pathlib import Path

COMMENT = re.compile(r"/\*.*?\*/", re.S)
FUNCTION = re.compile(r"^(?!static\b|typedef\b)[A-Za-z_][\w ]*?[ *]+(\w+)\s*\([^;{}()]*\);", re.M)
# What is there for compilers alone: the guard, includes, what C++ wants, tests of the platform and of sizes.
ALONE = re.compile(
    r"^(?:#(?:ifndef \w+_H\n#define \w+_H|include .*|ifdef __cplusplus\n(?:.*\n)*?#endif|endif"
    r"|if !defined.*\n#error .*\n#endif)|(?:/\*[^*]*\*/\n)?COMPRESSOR_ASSERT_\([^;]*\);)\n",
    re.M,
)
# An inline function: the page has what declares it.
INLINE = re.compile(r"^(static inline [^;{]*?) \{( /\*.*?\*/)?\n(?:[^}\n].*\n)*?\}", re.M)


def names_of(text):
    return sorted(FUNCTION.findall(COMMENT.sub("", text)))


def chunks_of(text):
    """The comments that begin a line, and the code between them, in order."""
    at = 0
    for found in re.finditer(r"^/\*.*?\*/", text, re.M | re.S):
        yield "code", text[at : found.start()].strip("\n")
        yield "text", found[0][2:-2].strip()
        at = found.end()
    yield "code", text[at:].strip("\n")


def plain(line):
    """A line of text for roff."""
    for one, roff in ("\\", "\\e"), ("^", "\\(ha"), ("~", "\\(ti"), ("'", "\\(aq"), ("`", "\\(ga"):
        line = line.replace(one, roff)
    return "\\&" + line if line.startswith(".") else line


def literal(lines, indent="4n"):
    return [".RS " + indent, ".nf", *(plain(it).replace("-", "\\-") for it in lines), ".fi", ".RE"]


def written(text):
    """A comment as roff: its lines are filled, and those that stand further in are left as they are."""
    lines = [re.sub(r"^   ", "", it) for it in text.split("\n")]
    out, deep = [], []
    for line in [*lines, ""]:
        if line.startswith("  "):
            deep.append(line[2:])
            continue
        if deep:
            out += [*literal(deep), ".PP"]
            deep = []
        out += [".br"] * bool(re.match(r"Conditions?: |Refusals: ", line))
        out += [plain(line)] if line else [".PP"]
    while out and out[-1] == ".PP":
        out.pop()
    return out


def declared(code):
    """Declarations as roff, with the functions' names in bold."""
    found = set(names_of(code))
    lines = literal(INLINE.sub(r"\1;\2", code).split("\n"))
    return [re.sub(r"\b(\w+)(?=\()", lambda it: f"\\fB{it[1]}\\fR" if it[1] in found else it[1], it) for it in lines]


def page_of(text, version):
    head, *parts = [it for it in chunks_of(ALONE.sub("", text)) if it[1]]
    out = [f'.TH COMPRESSOR 3 "" "compressor {version}"', ".SH NAME"]
    out += ["compressor \\- a compacting garbage collector, for C"]
    out += [".SH SYNOPSIS", ".nf", "#include <compressor.h>", "", "cc .. \\-lcompressor", ".fi", ".PP"]
    out += ["What follows is the text of the header. The library that is installed has all in it that the text links."]
    out += [".SH DESCRIPTION", *written(head[1]), ".SH TYPES AND NUMBERS"]
    waiting = None
    for kind, body in parts:
        if kind == "text" and re.fullmatch(r"[A-Z ]+(?:\(.*\))?", body):
            out += [f".SH {body}"]
        elif kind == "text":
            if waiting:
                out += [".PP", *written(waiting)]
            waiting = body
        else:
            for part in re.split(r"\n{2,}", body):
                out += [".PP", *declared(part)]
                out += [".PP", *written(waiting)] if waiting else []
                waiting = None
    out += [".PP", *written(waiting)] if waiting else []
    out += [".SH SEE ALSO", ".BR compressor (1),", "compressor_rest.h, inline functions for a heap at rest,"]
    out += ["and docs/C.md in share/doc/compressor, which has the cycle as a whole."]
    return "\n".join(out) + "\n"


def main():
    if len(sys.argv) == 3 and sys.argv[1] == "--names":
        print("\n".join(names_of(Path(sys.argv[2]).read_text())))
    elif len(sys.argv) == 3 and not sys.argv[1].startswith("-"):
        print(page_of(Path(sys.argv[1]).read_text(), sys.argv[2]), end="")
    else:
        print(__doc__.strip(), file=sys.stderr)
        sys.exit(2)


main()
