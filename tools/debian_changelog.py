"""Writes CHANGELOG.md as the changelog of a Debian package, to standard output.

usage: debian_changelog.py CHANGELOG.md SOURCE MAINTAINER

Each release is an entry, whose time is noon of its day; the headings below it are in brackets. What is not released
yet stands first in the newest entry, and its headings say so: a package has the number of the newest release.
"""
import datetime
import re
import sys
import textwrap
from email.utils import format_datetime
from pathlib import Path


def points_of(text):
    """The headings and points of a release: (heading, [point]), each point one line."""
    found = []
    for heading, body in re.findall(r"^### (.*?)\n(.*?)(?=^### |\Z)", text, re.M | re.S):
        points = re.split(r"^- ", body.strip(), flags=re.M)
        found.append((heading, [" ".join(it.split()) for it in points if it.strip()]))
    return found


def lines_of(sections, label):
    for heading, points in sections:
        yield f"  [ {label}{heading} ]"
        for it in points:
            yield from textwrap.wrap(
                it, 79, initial_indent="  * ", subsequent_indent="    ", break_long_words=False, break_on_hyphens=False
            )
        yield ""


def main():
    if len(sys.argv) != 4:
        print(__doc__.strip(), file=sys.stderr)
        sys.exit(2)
    path, source, maintainer = sys.argv[1:]
    parts = re.split(r"^## \[(.*?)\](?: - (\S+))?\n", Path(path).read_text(), flags=re.M)[1:]
    waiting = []
    for version, day, body in zip(parts[::3], parts[1::3], parts[2::3]):
        if day is None:
            waiting = list(lines_of(points_of(body), "Not released yet: "))
            continue
        time = datetime.datetime.fromisoformat(day).replace(hour=12, tzinfo=datetime.timezone.utc)
        print(f"{source} ({version}) unstable; urgency=medium\n")
        print("\n".join([*waiting, *lines_of(points_of(body), "")]))
        print(f" -- {maintainer}  {format_datetime(time)}\n")
        waiting = []


main()
