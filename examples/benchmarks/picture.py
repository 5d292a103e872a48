"""Draws results of the benchmarks in SVG: a panel for each program, in it a row for each back end. Names stand left of
the scale and numbers right of it, so that none lies on a line or a bar."""
import functools
import math
from xml.sax.saxutils import escape

GROUPS = (  # what the legend says, the colour, the back ends
    ("Meldhawthorn at rest", "#1b6ca8", ("rest", "rest-copy", "rest-4", "rest-job", "touch-inline", "touch-trap",
                                         "young", "young-fixed", "young-aged")),
    ("Meldhawthorn flipped", "#8e44ad", ("flipped",)),
    ("Boehm's libgc", "#d1495b", ("boehm",)),
    ("plain collectors", "#2a9d58", ("mark-slide", "copying", "young-plain", "plain-fixed")),
    ("malloc and free", "#8a8a8a", ("by-hand",)),
)
COLOURS = {it: colour for _, colour, members in GROUPS for it in members}
WIDTH, MARGIN, GAP = 800, 14, 26  # of the picture, around it, between panels
TOP, ROW, NAMES, NUMBERS = 24, 16, 70, 46  # of a panel: its title, a row, columns left and right of the scale
LEAST, MOST = 1.25, 3.0  # between these a scale of ratios ends
WAYS = ("rest", "touch-inline", "young", "flipped", "mark-slide", "boehm")  # whose pauses are drawn over time
PLOT = 70  # the height of their bars at most


def text(x, y, words, more=""):
    return f'<text x="{x:.1f}" y="{y:.1f}"{" " + more if more else ""}>{escape(words)}</text>'


def line(x, y, to_x, to_y, more):
    return f'<line x1="{x:.1f}" y1="{y:.1f}" x2="{to_x:.1f}" y2="{to_y:.1f}" {more}/>'


def wide(words, size):
    """About the width of words, in a wide font."""
    return len(words) * size * 0.64


def number(x):
    """Three digits, of small ones fewer."""
    return f"{x:.{0 if x >= 99.95 else 1 if x >= 9.995 else 2 if x >= 0.0995 else 3}f}"


def legend(back_ends, y):
    shapes, x = [], MARGIN
    for words, colour, members in GROUPS:
        if any(it in back_ends for it in members):
            shapes.append(f'<rect x="{x:.1f}" y="{y - 9}" width="10" height="10" fill="{colour}"/>')
            shapes.append(text(x + 15, y, words))
            x += 15 + wide(words, 12) + 14
    return shapes


def page(results, title, heads, back_ends, panels, columns, height):
    """The picture: these panels, each drawn for a width, side by side, each of that height."""
    if results.unproved:
        heads.append("The library is NOT PROVED: these times are not its own.")
    if results.quick:
        heads.append("A quick run, whose times say nothing.")
    shapes, y = [text(MARGIN, 24, title, 'font-weight="bold" font-size="15"')], 44
    for words in heads:
        shapes.append(text(MARGIN, y, words))
        y += 18
    shapes += legend(back_ends, y)
    y += 22
    columns = max(1, min(columns, len(panels)))
    width = (WIDTH - 2 * MARGIN - (columns - 1) * GAP) / columns
    for k, draw in enumerate(panels):
        x = MARGIN + k % columns * (width + GAP)
        shapes += [f'<g transform="translate({x:.1f} {y + k // columns * height})">', *draw(width), "</g>"]
    y += math.ceil(len(panels) / columns) * height
    size = f'width="{WIDTH}" height="{y}" viewBox="0 0 {WIDTH} {y}"'
    style = 'font-family="Arial, Helvetica, sans-serif" font-size="12" fill="#222"'
    first = f'<svg xmlns="http://www.w3.org/2000/svg" {size} {style}>'
    return "\n".join([first, f'<rect width="{WIDTH}" height="{y}" fill="#fff"/>', *shapes, "</svg>"]) + "\n"


def bars(title, ratios, end, remark, width):
    """A panel of bars from 0 to the end of the scale. One that is longer is broken. A ratio may have a star."""
    shapes = [text(0, 14, title, 'font-weight="bold" font-size="13"')]
    full, bottom = width - NAMES - NUMBERS, TOP + len(ratios) * ROW
    for k, (it, (ratio, star)) in enumerate(ratios.items()):
        y = TOP + k * ROW
        shapes.append(text(NAMES - 6, y + 11, it, 'text-anchor="end"'))
        shapes.append(text(width, y + 11, number(ratio) if ratio else "-", 'text-anchor="end"'))
        if star:
            shapes.append(text(width + 1, y + 11, "*"))
        long = min((ratio or 0) / end, 1) * full
        shapes.append(f'<rect x="{NAMES}" y="{y + 1}" width="{long:.1f}" height="{ROW - 4}" fill="{COLOURS[it]}"/>')
        if ratio and ratio > end:
            for x in (NAMES + full - 16, NAMES + full - 10):
                shapes.append(line(x, y + ROW - 1, x + 6, y - 1, 'stroke="#fff" stroke-width="2.5"'))
    shapes.append(text(width, bottom + 11, remark, 'text-anchor="end" font-size="11" fill="#555"'))
    one = NAMES + full / end
    return [*shapes, line(one, TOP - 3, one, bottom, 'stroke="#222"')]


def means_of(results, base, count):
    """For each back end its mean over the base, with a star if fewer programs are in it; and what the star says."""
    means = {it: results.mean_ratio(it, base) or (None, count) for it in results.back_ends}
    fewer = {of for _, of in means.values() if of != count}
    told = {it: (mean, of != count) for it, (mean, of) in means.items()}
    return told, f"* of {min(fewer) if len(fewer) == 1 else 'fewer'} programs" if fewer else ""


def times(results):
    """Processor times over those of Boehm's, or else of another collector, and their geometric mean."""
    base = next((it for it in ("boehm", "mark-slide", *results.back_ends) if it in results.back_ends), None)
    panels = {p: {it: (results.ratio(p, it, base), False) for it in results.back_ends} for p in results.programs}
    panels = {p: ratios for p, ratios in panels.items() if any(ratio for ratio, _ in ratios.values())}
    known = sorted(ratio for ratios in panels.values() for ratio, _ in ratios.values() if ratio)
    usual = known[len(known) * 17 // 20] if known else 1  # most are at most so long: a few long ones do not shrink all
    end = min(MOST, max(LEAST, math.ceil(usual * 4) / 4))
    drawn = [functools.partial(bars, title, ratios, end, "") for title, ratios in panels.items()]
    if len(panels) > 1:
        means, remark = means_of(results, base, len(panels))
        drawn.append(functools.partial(bars, f"geometric mean of all {len(panels)}", means, end, remark))
    name = "Boehm's libgc" if base == "boehm" else base
    title = f"Processor time over that of {name}: shorter is faster"
    head = f"The line is {name}, at 1. A broken bar is longer than drawn. The collectors have the same heap budget."
    height = TOP + ROW * len(results.back_ends) + 20
    return page(results, title, [head], results.back_ends, drawn, 2 if len(drawn) == 4 else 3, height)


def scale(low, high, full):
    """The ends of a logarithmic scale, and the numbers at it that have room, mostly powers of ten."""
    known = [lead * 10.0**k for k in range(-3, 7) for lead in (1, 2, 5)]
    low = max([it for it in known if it <= low], default=known[0])
    high = min([it for it in known if it >= high and it > low], default=known[-1])
    for step in (1, 3, 6):
        ticks = [it for it in known[::step] if low <= it <= high]
        if len(ticks) * (max(wide(f"{it:g}", 10) for it in ticks) + 6) <= full:
            break
    return low, high, ticks


def dots(title, pauses, low, high, width):
    """A panel of pauses: from the mean, a dot, to the longest."""
    full, bottom = width - NAMES - 2 * NUMBERS, TOP + len(pauses) * ROW
    low, high, ticks = scale(low, high, full)

    def place(x):
        return NAMES + full * math.log(min(high, max(low, x)) / low) / math.log(high / low)

    shapes = [text(0, 14, title, 'font-weight="bold" font-size="13"')]
    for x, words in ((width - NUMBERS, "mean"), (width, "longest")):
        shapes.append(text(x, 14, words, 'text-anchor="end" font-size="11" fill="#555"'))
    for it in ticks:
        shapes.append(line(place(it), TOP - 2, place(it), bottom, 'stroke="#ddd"'))
        shapes.append(text(place(it), bottom + 12, f"{it:g}", 'text-anchor="middle" font-size="10" fill="#555"'))
    for k, (it, pause) in enumerate(pauses.items()):
        y = TOP + k * ROW + 7
        shapes.append(text(NAMES - 6, y + 4, it, 'text-anchor="end"'))
        for x, length in zip((width - NUMBERS, width), pause or (None, None)):
            shapes.append(text(x, y + 4, number(length) if pause else "-", 'text-anchor="end"'))
        if pause:
            mean, longest = map(place, pause)
            shapes.append(line(mean, y, longest, y, f'stroke="{COLOURS[it]}" stroke-width="2"'))
            shapes.append(line(longest, y - 5, longest, y + 5, f'stroke="{COLOURS[it]}" stroke-width="2"'))
            shapes.append(f'<circle cx="{mean:.1f}" cy="{y}" r="4.5" fill="{COLOURS[it]}"/>')
    return shapes


def pauses(results):
    """The mean and the longest pause in each program in which all collectors collect that run it."""
    tell = results.median
    names = [it for it in results.back_ends if any(tell(p, it, "collections") for p in results.programs)]
    panels = {}
    for p in results.programs:
        counts = [tell(p, it, "collections") for it in names if (p, it) in results.rows]
        if counts and all(counts):
            panels[p] = {it: (tell(p, it, "pause"), tell(p, it, "longest")) if (p, it) in results.rows else None
                         for it in names}
    both = [it for pauses in panels.values() for it in pauses.values() if it]
    low, high = min((it[0] for it in both), default=1), max((it[1] for it in both), default=1)
    title = "Pauses in milliseconds: further left is shorter"
    head = "The dot is the mean, the end of its line the longest. The scale is logarithmic."
    head = head if panels else "There is no program in which all collect."
    drawn = [functools.partial(dots, title, pauses, low, high) for title, pauses in panels.items()]
    return page(results, title, [head], names, drawn, 2, TOP + ROW * len(names) + 32)


def bar_chart(it, told, low, high, width):
    """A panel of the pauses of one run, each where it was: as wide as it was long, and up to its length."""
    full, wall, lengths = width - NAMES, told["wall"], [length for _, length, *_ in told["pauses"]]
    count, total, longest = len(lengths), sum(lengths), max(lengths)
    low, high, ticks = scale(low, high, full)
    bottom = TOP + PLOT

    def place(x):
        return bottom - PLOT * math.log(max(x, low) / low) / math.log(high / low)

    said = f"{count} pauses in {number(wall)} ms: {number(total)} together, the longest {number(longest)}"
    shapes = [text(0, 14, it, 'font-weight="bold" font-size="13"')]
    shapes.append(text(width, 14, said, 'text-anchor="end" font-size="11" fill="#555"'))
    for tick in (x for x in ticks if math.log10(x) % 1 == 0):
        shapes.append(line(NAMES, place(tick), width, place(tick), 'stroke="#ddd"'))
        shapes.append(text(NAMES - 6, place(tick) + 4, f"{tick:g}", 'text-anchor="end" font-size="10" fill="#555"'))
    for began, length, *_ in told["pauses"]:
        x, y, long = NAMES + full * began / wall, min(place(length), bottom - 2), max(full * length / wall, 1)
        size = f'width="{long:.1f}" height="{bottom - y:.1f}"'
        shapes.append(f'<rect x="{x:.1f}" y="{y:.1f}" {size} fill="{COLOURS[it]}"/>')
    step = next(lead * 10.0**k for k in range(-3, 7) for lead in (1, 2, 5) if wall / (lead * 10.0**k) <= 10)
    for tick in (k * step for k in range(int(wall / step) + 1)):
        x = NAMES + full * tick / wall
        shapes.append(text(x, bottom + 12, f"{tick:g}", 'text-anchor="middle" font-size="10" fill="#555"'))
    return [*shapes, line(NAMES, bottom, width, bottom, 'stroke="#222"')]


def over_time(results):
    """Each pause of a program, in a panel for each of the WAYS: of the first program in which all of them collect."""

    def runs_of(program):
        rows = {it: results.rows[program, it][0] for it in WAYS if (program, it) in results.rows}
        return rows if rows and all(row.get("pauses") for row in rows.values()) else {}

    program = next((it for it in results.programs if runs_of(it)), None)
    runs = runs_of(program)
    lengths = [length for told in runs.values() for _, length, *_ in told["pauses"]]
    low, high = min(lengths, default=1), max(lengths, default=1)
    title = f"Each pause of {program} in milliseconds, over the time of its run" if runs else "Pauses over time"
    head = "A bar is a pause: as wide as it is long, and as high, on a logarithmic scale. All runs are equally wide."
    head = head if runs else "There is no program in which all collect, or it was not told when."
    drawn = [functools.partial(bar_chart, it, told, low, high) for it, told in runs.items()]
    return page(results, title, [head], list(runs), drawn, 1, TOP + PLOT + 26)
