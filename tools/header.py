"""Compares compressor.h with the exports of compressor_c, as shell.c calls them, and with what the crates of handles
answer: the same names, parameters (each handle of its kind) and results; structs with the same fields; the same
statuses, kinds, limits and version. Of shell.c it sees that each function hands on its own arguments, in their order. The text of the
version is no export: it alone is declared in version_text.c.

usage: header.py CRATES
"""
import re
import sys
from pathlib import Path

# The crates whose calls the exports make.
HANDLES = ["handle_base", "file_handle", "flip_handle", "rest_handle", "beside_handle"]
TYPES = {
    "&mut Written": ["compressor_entry *"],
    "&mut MutatorFacts": ["compressor_mutator_facts *"],
    "&mut EndFacts": ["compressor_end_facts *"],
    "&mut HeapFacts": ["compressor_heap_facts *"],
    "&mut PlanFacts": ["compressor_plan_facts *"],
    "&mut SurveyFacts": ["compressor_survey_facts *"],
    "&mut [u64; 64]": ["uint64_t *"],
    "&mut u64": ["uint64_t *"],
    "&mut [u64]": ["uint64_t *", "size_t"],
    "&[u64]": ["const uint64_t *", "size_t"],
    "&[u32]": ["const uint32_t *", "size_t"],
    "&[u8]": ["const uint8_t *", "size_t"],
    "&mut [u8]": ["uint8_t *", "size_t"],
    "u32": ["uint32_t"],
    "u64": ["uint64_t"],
}
RESULTS = {"Answer": "compressor_answer", "u32": "uint32_t", None: "void"}
STRUCTS = {
    "Answer": "compressor_answer",
    "Written": "compressor_entry",
    "MutatorFacts": "compressor_mutator_facts",
    "EndFacts": "compressor_end_facts",
    "HeapFacts": "compressor_heap_facts",
    "PlanFacts": "compressor_plan_facts",
    "SurveyFacts": "compressor_survey_facts",
}
# This status has no name in C: no call of C is answered so.
NOT_IN_C = {"NOT_IN_EDITION": 5}
# These variants have another name in C.
VARIANTS = {
    "Refusal::Null": "NULL_OBJECT",
    "LayoutFault::Truncated": "IMAGE_TRUNCATED",
    "LayoutFault::TrailingBytes": "IMAGE_TRAILING",
    "LayoutFault::BadMagic": "IMAGE_BAD_MAGIC",
    "LayoutFault::Device": "OUT_OF_MEMORY",
    "DumpFault::Truncated": "FILE_TRUNCATED",
    "DumpFault::TrailingBytes": "FILE_TRAILING",
    "DumpFault::BadMagic": "FILE_BAD_MAGIC",
    "DumpFault::BadField": "FILE_BAD_FIELD",
    "DumpFault::Device": "OUT_OF_MEMORY",
    "CollectFault::NoRoom": "TOO_SHORT",
    "CollectPinnedFault::TooManyRuns": "TOO_SHORT",
    "BitsFault::ShortObjects": "BAD_EDITION",
    "BitsFault::PastEnd": "OBJECT_PAST_END",
    "TurnFault::OtherRoom": "OTHER_LENGTH",
    "LookFault::ShortRun": "TOO_SHORT",
    "MeetFault::BadValue": "BAD_ROOT",
    "CheckFault::Unowned": "NOT_A_RUN",
    "MeetFault::Busy": "MARKERS_BUSY",
    "MarkingFault::ShortObjects": "BAD_EDITION",
    "MarkingEnd::Waiting": "STILL_MARKING",
    "MarkingEnd::NoMemory": "OUT_OF_MEMORY",
    "MovedFault::WrongHead": "MOVED_WRONG_HEAD",
    "MovedFault::PlaceOutside": "MOVED_PLACE_OUTSIDE",
    "MovedFault::Overlap": "MOVED_OVERLAP",
    "MovedFault::WrongRoot": "MOVED_WRONG_ROOT",
    "MovedFault::WrongWord": "MOVED_WRONG_WORD",
}
# The constants of heap_layout by their names in C.
LIMITS = {
    "FROM_SPACE": "FROM_SPACE",
    "TO_SPACE": "TO_SPACE",
    "IMMEDIATE": "FIRST_IMMEDIATE",
    "PAGE_WORDS": "PAGE_WORDS",
    "MAX_NEW_WORDS": "MAX_FRESH_OBJECT_WORDS",
    "MAX_ENTRIES": "MAX_ENTRIES",
    "MAX_MUTATORS": "MAX_MUTATORS",
}
# What an inline function answers for editions one and two, and for the later ones.
BY_EDITION = {
    "max_words": ("MAX_WORDS", "MAX_LARGE_WORDS"),
    "max_object_words": ("MAX_OBJECT_WORDS", "MAX_LARGE_WORDS"),
    "max_roots": ("MAX_ROOTS", "MAX_LARGE_ROOTS"),
}


def bare(text):
    """C without comments."""
    return re.sub(r"/\*.*?\*/", "", text, flags=re.S)


def exported(text):
    """The exports by their names, as C declares them: the result and the parameters' types."""
    found = {}
    for name, given, result in re.findall(r'pub extern "C" fn (\w+)\(([^)]*)\)(?: -> (\w+))?', text):
        kinds = []
        for it in given.split(",\n" if "\n" in given else ", "):
            if it.strip():
                own, kind = it.strip().rstrip(",").split(": ", 1)
                if kind == "&mut Handle":
                    # It has the name of its kind; the other one of a call has the kind of what the call acts on.
                    acts_on = name.replace("compressor_c_", "compressor_").split("_")[1]
                    kinds.append(f"compressor_{acts_on if own == 'other' else own} *")
                elif kind != "Global":
                    kinds += TYPES[kind]
        found[name] = [RESULTS[result or None], *kinds]
    return found


def handed_on(given):
    """The arguments with which the shell calls for these parameters, without spaces."""
    kinds = [re.fullmatch(r"(.*?)(\w+)", it).groups() for it in re.split(r",\s*", " ".join(given.split()))]
    words = []
    for (kind, own), (after, count) in zip(kinds, [*kinds[1:], ("", "")]):
        if kind.endswith("*") and after == "size_t ":
            own = f"{'IN' if kind.startswith('const') else 'OUT'}({own},{count})"
        words.append(own)
    return f"({','.join(words)})"


def through(exports, shell):
    """The exports as programs see them through the shell: those that it calls by the names of its own functions. The
    name of a crew is the shell's. And what is wrong: an export is called if it takes an array, or such a name."""
    called = set(re.findall(r"^CALL\((\w+),", shell, flags=re.M)) | set(re.findall(r"return compressor_c_(plan_flip)\(", shell))
    found, wrong = {}, []
    for own, given, handed in re.findall(r"^CALL\((\w+),\s*\(([^)]*)\),\s*(.*?)\)\n(?=CALL|\n)", shell, flags=re.M | re.S):
        if "".join(handed.split()) != handed_on(given):
            wrong.append(f"compressor_{own}: the shell hands on {' '.join(handed.split())}")
    for name, kinds in exports.items():
        own = name.removeprefix("compressor_c_")
        inner = own != name
        if inner != (own in called):
            wrong.append(f"{name}: the shell calls it, or it is named so, and not both")
        if inner != ("size_t" in kinds or own == "plan_flip"):
            wrong.append(f"{name}: an array goes through the shell, and nothing else")
        if own == "plan_flip":
            kinds = kinds[:2] + kinds[3:]
        found["compressor_" + own if inner else name] = kinds
    wrong += [f"{own}: there is no such export" for own in sorted(called) if f"compressor_c_{own}" not in exports]
    return found, wrong


def declared(text):
    """The declarations by their names, in the same form."""
    found = {}
    for result, name, given in re.findall(r"^(compressor_answer|uint32_t|void) (\w+)\(([^)]*)\);", text, flags=re.M):
        kinds = []
        for it in re.split(r",\s*", " ".join(given.split())):
            if it != "void":
                kind, last = re.fullmatch(r"(.*?[ *])\w+(\[64\])?", it).groups()
                kinds.append(f"{kind.strip()} *" if last else kind.strip())
        found[name] = [result, *kinds]
    return found


def fields_in_c(text):
    """The fields of the structs, by the structs' names."""
    found = {}
    for name, body in re.findall(r"typedef struct (\w+) \{(.*?)\} \1;", text, flags=re.S):
        found[name] = re.findall(r"(\w+) (\w+(?:\[\d+\])?);", body)
    return found


def fields_in_rattle(text):
    """The same of structs that C sees."""
    found = {}
    for name, body in re.findall(r"#\[repr\(C\)\]\n#\[derive[^\n]*\npub struct (\w+) \{(.*?)\n\}", text, flags=re.S):
        found[name] = [(f"uint{kind[1:]}_t", own) for own, kind in re.findall(r"pub (\w+): (u\d+),", body)]
    return found


def name_of(variant):
    """The name of a variant in C."""
    own = variant.split("::")[1]
    return VARIANTS.get(variant, re.sub(r"(?<!^)([A-Z])", r"_\1", own).upper())


def named(crate):
    """The statuses by their names: as the code has them, and as the specs do; but DONE, which is 0 in both."""
    consts = re.findall(r"^pub const (\w+): u32 = (\d+);", (crate / "src/status.rt").read_text(), flags=re.M)
    abbrevs = re.findall(r"^(\w+) = (\d+)$", (crate / "specs/Statuses.antt").read_text(), flags=re.M)
    yield "src/status.rt", {name: int(n) for name, n in consts}
    yield "specs/Statuses.antt", {name.upper(): int(n) for name, n in abbrevs}


def compare_statuses(statuses, crates, answers):
    """What differs in the names of statuses and their numbers, in their use, or in which fault has which."""
    want = {**statuses, **NOT_IN_C}
    want.pop("DONE")
    for own, have in named(crates / HANDLES[0]):
        for name in sorted({*have, *want}):
            if have.get(name) != want.get(name):
                yield f"{name}: the header has {want.get(name)}, {own} of {HANDLES[0]} has {have.get(name)}"
    used = {*re.findall(r"\bstatus::(\w+)", answers)}
    if used != {*want}:
        yield f"statuses that are no answer, or have no name: {sorted(used ^ {*want})}"
    specs = "".join(re.sub(r"--.*", "", it.read_text()) for own in HANDLES for it in sorted((crates / own / "specs").glob("*.antt")))
    by_number = re.findall(r"Answer::(?:bare|two)\(\s*\d+|place\([^;{}]*, \d+\)|\b(?:bare|two|IsPlace) [1-9]\d*", answers + specs)
    if by_number:
        yield f"statuses that stand by their number: {sorted({*by_number})}"
    for variant, name in re.findall(r"(\w+Fault::\w+|Refusal::\w+)(?:\([^)]*\))? => Answer::(?:bare|two)\(\s*status::(\w+)", answers):
        if name_of(variant) != name:
            yield f"{variant} is answered {name}, and not {name_of(variant)}"


def number(text):
    """The number that a constant of C or of Rattle says."""
    text = re.sub(r"UINT64_C\((\w+)\)", r"\1", text.replace("_", "") if "UINT" not in text else text)
    return eval(re.sub(r"(?<=\d)(?:u64|u32|usize|u)\b", "", text), {"__builtins__": {}})


def compare(crates):
    """What differs."""
    raw = (crates / "compressor_c/include/compressor.h").read_text()
    text = bare(raw)
    exports = "".join(it.read_text() for it in sorted((crates / "compressor_c/src").glob("*.rt")))
    answers = "".join(it.read_text() for own in HANDLES for it in sorted((crates / own / "src").glob("*.rt")))
    header = declared(text)
    given, wrong = through(exported(exports), bare((crates / "compressor_c/shell/shell.c").read_text()))
    yield from wrong
    for name in sorted({*header, *given}):
        if header.get(name) != given.get(name):
            yield f"{name}: the header has {header.get(name)}, the exports have {given.get(name)}"
    texts = re.findall(r"^const char \*(\w+)\(void\)", text, flags=re.M)
    shown = re.findall(r"^const char \*(\w+)\(void\)", (crates / "compressor_c/shell/version_text.c").read_text(), flags=re.M)
    if texts != ["compressor_version_text"] or shown != texts:
        yield f"texts: the header has {texts}, version_text.c has {shown}"
    in_c, in_rattle = fields_in_c(text), fields_in_rattle(answers)
    for own, name in STRUCTS.items():
        have = [it for it in in_c.get(name, []) if not re.fullmatch(r"unused\[\d+\]", it[1])]
        if have != in_rattle.get(own):
            yield f"{name}: the header has {have}, {own} has {in_rattle.get(own)}"
    enum = re.search(r"typedef enum compressor_status \{(.*?)\}", text, flags=re.S).group(1)
    statuses = {name: int(n) for name, n in re.findall(r"COMPRESSOR_(\w+) = (\d+)", enum)}
    yield from compare_statuses(statuses, crates, answers)
    texts = re.findall(r"COMPRESSOR_CASE_\((\w+)\)(?! case)", text)
    if texts != list(statuses):
        yield f"texts of statuses: {sorted({*texts} ^ {*statuses})}, or their order"
    kinds = dict(re.findall(r"COMPRESSOR_KIND_(\w+) = (\d)", text))
    helps = dict(re.findall(r"COMPRESSOR_HELP_(\w+) = (\d)", text))
    told = {name.upper(): n for name, n in re.findall(r"Help::(\w+) => Answer::done\((\d)", answers)}
    if helps != told:
        yield f"what a helper did: the header has {helps}, a job answers {told}"
    own = {name.upper().replace("REFERENCE", "REF"): n for name, n in re.findall(r"Kind::(\w+) => (\d)", answers)}
    if kinds != own:
        yield f"kinds: the header has {kinds}, kind_number has {own}"
    limits = (crates / "heap_layout/src/limits.rt").read_text()
    for name, own in LIMITS.items():
        have = number(re.search(rf"#define COMPRESSOR_{name} (.*)", text).group(1))
        want = number(re.search(rf"pub const {own}: \w+ = (.*);", limits).group(1))
        if have != want:
            yield f"{name}: the header has {have}, heap_layout has {want}"
    for name, owns in BY_EDITION.items():
        said = re.search(rf"compressor_{name}\(uint32_t edition\) \{{\s*return edition < 3 \? (.*?) : (.*?);", text)
        for have, own in zip(said.groups(), owns):
            want = number(re.search(rf"pub const {own}: \w+ = (.*);", limits).group(1))
            if number(have) != want:
                yield f"compressor_{name}: the header has {have}, {own} is {want}"
    parts = [int(re.search(rf"#define COMPRESSOR_VERSION_{it} (\d+)", text).group(1)) for it in ("MAJOR", "MINOR", "PATCH")]
    version = int(re.search(r"fn compressor_version\(\).*?\n\{\n    (\w+)\n", exports, flags=re.S).group(1).replace("_", ""))
    said = re.search(r'COMPRESSOR_VERSION_TEXT "([\d.]*)', text).group(1)
    if version != parts[0] * 1000000 + parts[1] * 1000 + parts[2] or said != ".".join(map(str, parts)):
        yield f"version: the macros have {parts}, the text {said}, the export {version}"


def main():
    wrong = list(compare(Path(sys.argv[1])))
    for it in wrong:
        print(it)
    print(f"compressor.h: {len(wrong)} differences from the exports")
    sys.exit(1 if wrong else 0)


main()
