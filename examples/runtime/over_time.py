"""Draws the pauses of one program in SVG, each where it was: a mark for a pause, a colour for a way to collect."""
import math
import pathlib
import sys

sys.path.insert(0, str(pathlib.Path(__file__).resolve().parent.parent / "benchmarks"))
from picture import MARGIN, WIDTH, line, number, scale, text  # noqa: E402

COLOURS = {"rest": "#1b6ca8", "young": "#2a9d58", "aging": "#e09f3e", "touch": "#d1495b", "flip": "#8e44ad"}
SAID = {"rest": "at rest", "young": "young, at rest", "aging": "aging, at rest", "touch": "by first touch",
        "flip": "flipped"}
LEFT, PLOT, ROW = 52, 300, 17  # the width of the numbers at the scale, the height of the plot, of a row of the legend


def legend(pauses, y):
    """A row for each way: how many pauses, their mean, the longest one, and their sum."""
    shapes = []
    for way, found in pauses.items():
        lengths = [length for _, length in found]
        said = "no pause"
        if lengths:
            said = f"{len(lengths)} pauses: mean {number(sum(lengths) / len(lengths))} ms, "
            said += f"longest {number(max(lengths))}, together {number(sum(lengths))}"
        shapes.append(f'<circle cx="{MARGIN + 5}" cy="{y - 4}" r="4" fill="{COLOURS[way]}"/>')
        shapes.append(text(MARGIN + 16, y, SAID[way]))
        shapes.append(text(MARGIN + 130, y, said))
        y += ROW
    return shapes, y


def page(name, pauses, is_unproved):
    """The picture. pauses: of each way, when each began, in seconds, and how long it took, in milliseconds."""
    title = f"Each pause of {name} in milliseconds, over the seconds of its run"
    heads = ["A mark is a pause of an evaluator, at the time when it began. The scale of pauses is logarithmic."]
    if is_unproved:
        heads.append("The library is NOT PROVED: these times are not its own.")
    shapes, y = [text(MARGIN, 24, title, 'font-weight="bold" font-size="15"')], 44
    for words in heads:
        shapes.append(text(MARGIN, y, words))
        y += 18
    rows, y = legend(pauses, y + 4)
    shapes += rows
    found = [it for all_of in pauses.values() for it in all_of]
    end = max((began + length / 1e3 for began, length in found), default=1)
    low, high = min((length for _, length in found), default=1), max((length for _, length in found), default=10)
    low, high, ticks = scale(low, high, math.inf)
    top, left, right = y + 6, MARGIN + LEFT, WIDTH - MARGIN
    bottom = top + PLOT

    def place(x):
        return bottom - PLOT * math.log(max(x, low) / low) / math.log(high / low)

    for tick in (x for x in ticks if round(math.log10(x), 6) % 1 == 0):
        shapes.append(line(left, place(tick), right, place(tick), 'stroke="#ddd"'))
        shapes.append(text(left - 6, place(tick) + 4, f"{tick:g}", 'text-anchor="end" font-size="10" fill="#555"'))
    step = next(lead * 10.0**k for k in range(-4, 5) for lead in (1, 2, 5) if end / (lead * 10.0**k) <= 10)
    for tick in (k * step for k in range(int(end / step) + 1)):
        x = left + (right - left) * tick / end
        shapes.append(text(x, bottom + 14, f"{tick:g}", 'text-anchor="middle" font-size="10" fill="#555"'))
    shapes.append(line(left, bottom, right, bottom, 'stroke="#222"'))
    for way, all_of in pauses.items():
        for began, length in all_of:
            x = left + (right - left) * began / end
            shapes.append(f'<circle cx="{x:.1f}" cy="{place(length):.1f}" r="3" fill="{COLOURS[way]}" '
                          'fill-opacity="0.8"/>')
    height = bottom + 26
    size = f'width="{WIDTH}" height="{height}" viewBox="0 0 {WIDTH} {height}"'
    style = 'font-family="Arial, Helvetica, sans-serif" font-size="12" fill="#222"'
    first = f'<svg xmlns="http://www.w3.org/2000/svg" {size} {style}>'
    return "\n".join([first, f'<rect width="{WIDTH}" height="{height}" fill="#fff"/>', *shapes, "</svg>"]) + "\n"
