"""The words of a tool that takes a program, and nothing else."""
import os
import pathlib
import sys


def program(usage):
    """The path of the program that the tool is given. Asked for help, or given wrong words, the tool ends here."""

    def wrong(said):
        print(f"{pathlib.Path(sys.argv[0]).name}: {said} (--help says more)", file=sys.stderr)
        sys.exit(2)

    path = None
    for word in sys.argv[1:]:
        if word == "--help":
            print(usage, end="")
            sys.exit(0)
        if word.startswith("-"):
            wrong(f"no word {word}")
        if path is not None:
            wrong("two programs")
        path = word
    if path is None:
        wrong("no program")
    if not os.path.isfile(path) or not os.access(path, os.X_OK):
        wrong(f"no program at {path}")
    return str(pathlib.Path(path).resolve())
