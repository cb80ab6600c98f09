"""Draws the table of speed in docs/SPEED.md as SVG, from the table alone. `speed_by_row` has each row's time here over
the original's, `speed_by_size` the time of a cell or a call by how many there are, and `speed_by_threads` that by how
many threads share a storage.
"""
import collections
import math
from xml.sax.saxutils import escape

import speed_table
from speed_table import SHARED, SIZES, THREADS, VALUES

FOLDER = speed_table.PAGE.parent / "pictures"
PAPER, INK, QUIET, RULE = "#ffffff", "#1a1a1a", "#5c5c5c", "#d9d9d9"
# Colours of Okabe and Ito, which most colour-blind people tell apart.
SLOWER, FASTER, HERE, THERE = "#d55e00", "#009e73", "#0072b2", "#5c5c5c"
WIDTH, LEFT, MARGIN = 860, 190, 20
# How the panels of a picture stand.
COLUMNS, PANEL, HIGH, TOP = 3, 276, 190, 152
# How many nodes an item of `worker_trees` stands above.
NODES = 319
Panel = collections.namedtuple("Panel", "title labels times")


def spelled(value):
    """A value of an attribute."""
    return f"{value:.1f}".removesuffix(".0") if isinstance(value, float) else escape(str(value), {'"': "&quot;"})


def element(name, inside="", **its):
    words = "".join(f' {word.replace("_", "-")}="{spelled(value)}"' for word, value in its.items())
    return f"<{name}{words}>{inside}</{name}>" if inside else f"<{name}{words}/>"


def text(x, y, words, size=13, **its):
    return element("text", escape(words), x=x, y=y, font_size=size, **its)


def line(start, end, colour=RULE, **its):
    return element("line", x1=start[0], y1=start[1], x2=end[0], y2=end[1], stroke=colour, **its)


def told(words):
    """What is shown at a part of a picture that one points at, and read out."""
    return element("title", escape(words))


def picture(name, description, height, parts):
    """A picture on a sheet of its own colour, so that it reads alike on light pages and dark ones."""
    sheet = element("rect", width=WIDTH, height=height, fill=PAPER, rx=6)
    labels = [element("title", escape(name), id="title"), element("desc", escape(description), id="desc")]
    inside = "\n".join(["", *labels, sheet, *parts, ""])
    its = {"width": WIDTH, "height": height, "viewBox": f"0 0 {WIDTH} {height}", "fill": INK, "role": "img"}
    its |= {"font_family": "Helvetica, Arial, sans-serif", "aria_labelledby": "title desc"}
    return element("svg", inside, xmlns="http://www.w3.org/2000/svg", **its) + "\n"


class Scale:
    """Places on a logarithmic axis, which begins and ends with a power of ten."""

    def __init__(self, values, first, last):
        logarithms = [round(math.log10(value), 6) for value in values]
        self.powers = range(math.floor(min(logarithms)), math.ceil(max(logarithms)) + 1)
        self.first, self.step = first, (last - first) / (len(self.powers) - 1)

    def place(self, value):
        return self.first + (math.log10(value) - self.powers[0]) * self.step

    def ticks(self):
        """The powers of ten, each with its place."""
        return [(power, self.place(10.0**power)) for power in self.powers]


def original_of(table):
    """The side that stands for the original, and what is said of it."""
    if "hard" in table.sides:
        return "hard", "The original has LTO and the processor's SHA instructions."
    return "soft", "The original has LTO. Both sides have SHA-256 in software."


def heading(table, name, more):
    """The lines at the top of a picture: its name, the machine and the day, and what more is to be known."""
    day_and_machine = " ".join(table.above.split()).partition(";")[0]
    lines = [f"{day_and_machine}.", original_of(table)[1], more]
    small = [text(MARGIN, 54 + 18 * place, words, fill=QUIET) for place, words in enumerate(lines)]
    return [text(MARGIN, 32, name, 18, font_weight="bold"), *small]


# ---- by row

def group_of(name, part):
    """Under which heading a part of a row stands, and what it is called there."""
    base, _, threads = name.partition("/")
    if threads:
        return "Threads that share a storage: 1, 2 and 4", f"{base}, {part}"
    if name in VALUES:
        return "Codec", f"{name}, {part}"
    if part == "out":
        return "Page-out", name
    if part == "in":
        return "Read back", name
    return "Single calls", f"{name}, {part}"


def ratios_of(table):
    """The bars of the picture by row: by group and label how long here takes over the original, as the row's count or
    its threads, over the side that stands for the original, and over it with SHA-256 in software. And the rows that the
    original doesn't do."""
    groups, undone = collections.defaultdict(lambda: collections.defaultdict(list)), []
    for (name, count, part), times in table.times.items():
        there, soft = times[original_of(table)[0]], times["soft"]
        if not there or not soft:
            undone += [] if name in undone else [name]
            continue
        group, label = group_of(name, part)
        its = f"{name.partition('/')[2]} threads" if "/" in name else f"{count:,}"
        groups[group][label].append((its, times["here"] / there, times["here"] / soft))
    return groups, undone


def ratio_text(ratio):
    return f"{ratio:.0f}" if ratio >= 9.95 else f"{ratio:.1f}" if ratio >= 0.995 else f"{ratio:.2f}"


def bars(scale, y, label, ratios):
    """The bars of a label, from this height on, and the height behind them."""
    thick = 10 if len(ratios) == 1 else 5
    one, parts = scale.place(1.0), []
    for place, (its, ratio, soft) in enumerate(ratios):
        end, top = scale.place(ratio), y + place * (thick + 1)
        shape = {"x": min(one, end), "y": top, "width": abs(end - one), "height": thick}
        words = f"{label} ({its}): {ratio_text(ratio)}; over the original with SHA-256 in software {ratio_text(soft)}"
        parts.append(element("rect", told(words), **shape, fill=SLOWER if ratio > 1 else FASTER))
    height = len(ratios) * (thick + 1)
    values = [ratio for _, ratio, _ in ratios]
    span = " to ".join(dict.fromkeys(map(ratio_text, (min(values), max(values)))))
    parts.append(text(LEFT - 8, y + height / 2 + 4, label, 12, text_anchor="end"))
    parts.append(text(scale.place(max(1.0, *values)) + 6, y + height / 2 + 4, span, 11))
    return parts, y + height + 5


def axis(scale, top, bottom):
    """The lines of the scale by row, with the ratio at both ends of each, and what its sides mean."""
    parts, one = [], scale.place(1.0)
    for power, x in scale.ticks():
        ratio = f"1/{10**-power:,}" if power < 0 else f"{10**power:,}"
        parts.append(line((x, top), (x, bottom), INK if power == 0 else RULE))
        parts += [text(x, y, ratio, 12, text_anchor="middle", fill=QUIET) for y in (top - 6, bottom + 16)]
    parts.append(text(one - 20, top - 22, "less time here", text_anchor="end", fill=FASTER, font_weight="bold"))
    return [*parts, text(one + 20, top - 22, "more time here", fill=SLOWER, font_weight="bold")]


def description_of(groups):
    """What the picture by row shows, in words."""
    said = []
    for group, labels in groups.items():
        by_ratio = sorted((ratio, label) for label, ratios in labels.items() for _, ratio, _ in ratios)
        least, most = [f"{ratio_text(ratio)} times ({label})" for ratio, label in (by_ratio[0], by_ratio[-1])]
        said.append(f"{group}: from {least} to {most} the original's time.")
    return " ".join(["Bars on a logarithmic axis, to the right of a line at 1 where here takes longer.", *said])


def by_row(table):
    """The picture of each row's time here over the original's."""
    groups, undone = ratios_of(table)
    ratios = [ratio for labels in groups.values() for its in labels.values() for _, ratio, _ in its]
    scale, y, parts = Scale([*ratios, 0.5, 2.0], LEFT, WIDTH - 90), 158, []
    for group, labels in groups.items():
        parts.append(text(MARGIN, y + 10, group, font_weight="bold"))
        y += 18
        for label, its_ratios in labels.items():
            its_parts, y = bars(scale, y, label, its_ratios)
            parts += its_parts
        y += 8
    sizes = f"{SIZES[0]:,} to {SIZES[-1]:,}"
    more = f"Several bars of one row, from top to bottom: {sizes} cells or calls, or 1, 2 and 4 threads."
    name = "Time here over the original's, by row"
    last = text(MARGIN, y + 36, f"Not drawn, since the original doesn't do them: {', '.join(undone)}.", 12, fill=QUIET)
    its_heading, its_axis = heading(table, name, more), axis(scale, 144, y - 4)
    return picture(name, description_of(groups), y + 52, [*its_heading, *its_axis, *parts, last])


# ---- by size, and by threads

def time_text(nanoseconds):
    """A time by three digits, in the largest unit of which it has one."""
    its = {unit: f"{nanoseconds / size:.3g}" for unit, size in (("ms", 1e6), ("µs", 1e3), ("ns", 1))}
    unit = next((unit for unit, number in its.items() if float(number) >= 1), "ns")
    return f"{its[unit]} {unit}"


def mark(x, y, side, inside=""):
    """A point of a side's line."""
    if side == "here":
        return element("circle", inside, cx=x, cy=y, r=4, fill=HERE)
    return element("rect", inside, x=x - 3.5, y=y - 3.5, width=7, height=7, fill=PAPER, stroke=THERE, stroke_width=2)


def curve(places, side):
    """The line of a side through these places."""
    path = " ".join(f"{x:.1f},{y:.1f}" for x, y in places)
    dashes = {"stroke": HERE} if side == "here" else {"stroke": THERE, "stroke_dasharray": "5 3"}
    return element("polyline", points=path, fill="none", stroke_width=2, **dashes)


def times_of(panel, side, across, up):
    """The line of a side of a panel, with a mark at each time."""
    places = [(x, up.place(value)) for x, value in zip(across, panel.times[side])]
    words = [f"{side}, {label}: {time_text(value)}" for label, value in zip(panel.labels, panel.times[side])]
    return [curve(places, side), *(mark(x, y, side, told(its)) for (x, y), its in zip(places, words))]


def last_values(x, panel, up):
    """The last time of each side, beside its point but one below the other."""
    (upper, its), (lower, other) = sorted((up.place(values[-1]), values[-1]) for values in panel.times.values())
    apart = max(0.0, 13 - (lower - upper)) / 2
    return [text(x, y + 4, time_text(value), 11) for y, value in ((upper - apart, its), (lower + apart, other))]


def panel_at(x, y, panel, up):
    """A panel whose times go up by this scale."""
    first, last = x + 52, x + PANEL - 62
    parts = [text(x + 4, y, panel.title, 13, font_weight="bold")]
    for power, height in up.ticks():
        parts.append(line((first - 8, height), (last + 8, height)))
        parts.append(text(first - 12, height + 4, time_text(10.0**power), 11, text_anchor="end", fill=QUIET))
    across = [first + place * (last - first) / (len(panel.labels) - 1) for place in range(len(panel.labels))]
    for label, place in zip(panel.labels, across):
        parts.append(text(place, up.place(10.0 ** up.powers[0]) + 18, label, 11, text_anchor="middle", fill=QUIET))
    parts += [part for side in reversed(panel.times) for part in times_of(panel, side, across, up)]
    return [*parts, *last_values(last + 12, panel, up)]


def of_panels(table, name, more, panels):
    """A picture of panels, whose times all go up alike."""
    times = [value for panel in panels for values in panel.times.values() for value in values]
    parts = [*heading(table, name, more), *legend(116)]
    for place, panel in enumerate(panels):
        x, y = MARGIN + place % COLUMNS * PANEL, TOP + place // COLUMNS * HIGH
        parts += panel_at(x, y, panel, Scale(times, y + HIGH - 50, y + 18))
    said = [f"{panel.title}: {', '.join(said_of(panel))}." for panel in panels]
    height = TOP + math.ceil(len(panels) / COLUMNS) * HIGH
    return picture(name, " ".join(["Times on logarithmic axes.", *said]), height, parts)


def said_of(panel):
    """What a panel shows, in words."""
    for side, values in panel.times.items():
        yield f"{side} {time_text(values[0])} at {panel.labels[0]} and {time_text(values[-1])} at {panel.labels[-1]}"


def legend(y):
    """What the two lines of a panel stand for."""
    parts = []
    for x, side in ((MARGIN + 4, "here"), (MARGIN + 110, "the original")):
        parts += [curve([(x, y), (x + 32, y)], side), mark(x + 16, y, side), text(x + 40, y + 4, side)]
    return parts


def panel_of(table, title, part, rows, labels, units=1):
    """The panel of a part of rows, each of which has so many units to its count."""
    sides = {"here": "here", "the original": original_of(table)[0]}
    per = {side: [table.times[*row, part][it] * 1e9 / row[1] / units for row in rows] for side, it in sides.items()}
    return Panel(title, labels, per)


def by_size(table):
    """The picture of the times of a cell and of a call, by how many there are."""
    parts = {"out": "page-out of a cell", "in": "a cell read back"}
    panels, labels = [], [f"{size // 1_000_000} million" if size >= 1_000_000 else f"{size:,}" for size in SIZES]
    for name in ("cells", "calls"):
        rows = [row for row in speed_table.ROWS if row.name == name]
        for part in rows[0].parts:
            its = [(row.name, row.count) for row in rows]
            panels.append(panel_of(table, f"{name}: {parts.get(part, part)}", part, its, labels))
    return of_panels(table, "Time by size", "The time of one cell or one call, where there are so many.", panels)


def by_threads(table):
    """The picture of the times by how many threads share a storage."""
    panels = []
    for row in SHARED:
        rows = [(f"{row.name}/{threads}", row.count) for threads in THREADS]
        for part in row.parts:
            units = NODES if row.name == "worker_trees" else 1
            panels.append(panel_of(table, f"{row.name}: {part}", part, rows, list(map(str, THREADS)), units))
    more = "The time of a call, a cell, an item of eight references, a node and a text, by 1, 2 and 4 threads together."
    return of_panels(table, "Time by threads", more, panels)


PICTURES = {"speed_by_row": by_row, "speed_by_size": by_size, "speed_by_threads": by_threads}


def drawn(page):
    """The pictures of the table in a page, by their files' names."""
    table = speed_table.table_in(page)
    return {f"{name}.svg": draw(table) for name, draw in PICTURES.items()}


def draw():
    """Draws the pictures of the page's table into their folder."""
    FOLDER.mkdir(exist_ok=True)
    for name, picture_text in drawn(speed_table.PAGE.read_text(encoding="utf-8")).items():
        (FOLDER / name).write_text(picture_text, encoding="utf-8")


def stale(page, folder):
    """The pictures in a folder that aren't those of the table in a page."""
    for name, picture_text in drawn(page).items():
        if not (folder / name).exists() or (folder / name).read_text(encoding="utf-8") != picture_text:
            yield name
