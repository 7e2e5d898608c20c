#!/usr/bin/env python3
"""crates.py [--check] [ROOT]: draws the crates of this tree, or of another, as docs/crates.svg.

crates.txt says which crate uses which, and the list of docs/DESIGN.md what each crate is. Crates of tests are left out. A line leads from
a crate up to each crate that it uses, unless a crate between them uses that one too. With --check it writes nothing, and says whether
the picture is as it would draw it.

It fails with one line if docs/DESIGN.md does not name a crate of crates.txt."""
import pathlib
import re
import sys
from xml.sax.saxutils import escape

ARGUMENTS = [it for it in sys.argv[1:] if it != "--check"]
ROOT = pathlib.Path(ARGUMENTS[0]).resolve() if ARGUMENTS else pathlib.Path(__file__).resolve().parents[3]
TABLE, DESIGN, PICTURE = ROOT / "crates.txt", ROOT / "docs/DESIGN.md", ROOT / "docs/crates.svg"
TESTS = re.compile(r"scm_(?:\w+_tests|samples|bench|worked_examples)$")
# the sizes of the drawing: boxes, gaps between columns and rows, and the room that a line takes beside boxes
WIDTH, HEIGHT, GAP, STEP, LINE, MARGIN = 176, 46, 18, 92, 16, 12
LONGEST_WORDS = 26
SWEEPS = 24
INK, PALE, PAPER, EDGE = "#24292f", "#57606a", "#f6f8fa", "#8c959f"


class Wrong(Exception):
    """What is wrong, in one line."""


def used_crates():
    """The crates without tests, each with the crates of the tree that it uses."""
    lines = [it.partition(":") for it in TABLE.read_text().splitlines() if it.strip() and not it.startswith("#")]
    used = {name.split()[0]: crates.split() for name, _, crates in lines}
    return {name: [it for it in crates if it in used] for name, crates in used.items() if not TESTS.match(name)}


def words_of_crates(names):
    """What docs/DESIGN.md says of each crate, as far as a box has room."""
    found = dict(re.findall(r"^- `(scm_\w+)`: (.*(?:\n  .*)*)", DESIGN.read_text(), re.M))
    words = {}
    for name in names:
        if name not in found:
            raise Wrong("docs/DESIGN.md: the list of crates lacks %s" % name)
        words[name] = re.split(r"[,;:(]", found[name].replace("\n ", "").replace("`", ""))[0].strip()
        if len(words[name]) > LONGEST_WORDS:
            raise Wrong("docs/DESIGN.md: %s begins with more than %d characters before a comma" % (name, LONGEST_WORDS))
    return words


def below(name, used):
    """All crates that a crate uses, directly or by others."""
    found = set()
    for it in used[name]:
        found |= {it} | below(it, used)
    return found


def drawn_uses(used):
    """For each crate the crates to which a line leads."""
    return {name: [it for it in crates if not any(it in below(other, used) for other in crates)] for name, crates in used.items()}


def levels_of(used):
    """The row of each crate: one below the lowest crate that it uses."""
    levels = {}
    while len(levels) < len(used):
        for name, crates in used.items():
            if name not in levels and all(it in levels for it in crates):
                levels[name] = 1 + max((levels[it] for it in crates), default=-1)
    return levels


def rows_and_ways(uses, levels):
    """The rows of the drawing, and the ways of its lines: in each row between its ends a line has a place of its own."""
    rows = [[name for name in uses if levels[name] == level] for level in range(max(levels.values()) + 1)]
    ways = []
    for name, crates in uses.items():
        for it in crates:
            places = [(name, it, level) for level in range(levels[it] + 1, levels[name])]
            for place in places:
                rows[place[2]].append(place)
            ways.append([it, *places, name])
    return rows, ways


def sorted_rows(rows, ways):
    """The rows, each in an order that keeps lines short: again and again by the middle of the neighbours in the row before or after."""
    near = {}
    for way in ways:
        for one, other in zip(way, way[1:]):
            near.setdefault(one, []).append(other)
            near.setdefault(other, []).append(one)
    place = {it: number - len(row) / 2 for row in rows for number, it in enumerate(row)}
    for sweep in range(SWEEPS):
        for row in rows if sweep % 2 else reversed(rows):
            middles = {it: sum(place[other] for other in near.get(it, [it])) / len(near.get(it, [it])) for it in row}
            row.sort(key=lambda it: middles[it])
            place.update({it: number - len(row) / 2 for number, it in enumerate(row)})
    return rows


def columns_of(rows):
    """The middle of each box and of each line's places, and the width of the drawing."""
    widths = [[WIDTH if isinstance(it, str) else LINE for it in row] for row in rows]
    room = max(sum(row) + GAP * (len(row) - 1) for row in widths)
    middles = {}
    for row, sizes in zip(rows, widths):
        at = (room - sum(sizes) - GAP * (len(row) - 1)) / 2
        for it, size in zip(row, sizes):
            middles[it] = MARGIN + at + size / 2
            at += size + GAP
    return middles, room + 2 * MARGIN


def line_of(way, middles, levels):
    """The element of a line from a crate to one that it uses."""
    level, points = levels[way[0]], []
    for number, it in enumerate(way):
        top = MARGIN + (level + number) * STEP
        points += [(middles[it], top + HEIGHT)] if number == 0 else [(middles[it], top)] if it == way[-1] else [(middles[it], top), (middles[it], top + HEIGHT)]
    path = "M%g %g" % points[0]
    for (x, y), (next_x, next_y) in zip(points, points[1:]):
        half = (y + next_y) / 2
        path += " C%g %g %g %g %g %g" % (x, half, next_x, half, next_x, next_y)
    return '<path d="%s" fill="none" stroke="%s" stroke-width="1.5"/>' % (path, EDGE)


def box_of(name, words, middle, level):
    """The elements of a crate's box."""
    y = MARGIN + level * STEP
    return [
        '<rect x="%g" y="%g" width="%d" height="%d" rx="6" fill="%s" stroke="%s"/>' % (middle - WIDTH / 2, y, WIDTH, HEIGHT, PAPER, EDGE),
        '<text x="%g" y="%g" fill="%s" font-weight="bold">%s</text>' % (middle, y + 19, INK, name),
        '<text x="%g" y="%g" fill="%s" font-size="11">%s</text>' % (middle, y + 36, PALE, escape(words)),
    ]


def picture():
    """The text of docs/crates.svg."""
    used = used_crates()
    words, levels = words_of_crates(used), levels_of(used)
    rows, ways = rows_and_ways(drawn_uses(used), levels)
    middles, width = columns_of(sorted_rows(rows, ways))
    height = 2 * MARGIN + (len(rows) - 1) * STEP + HEIGHT
    parts = [line_of(way, middles, levels) for way in ways]
    parts += [part for name in used for part in box_of(name, words[name], middles[name], levels[name])]
    head = '<svg xmlns="http://www.w3.org/2000/svg" width="%g" height="%g" viewBox="0 0 %g %g">' % (width, height, width, height)
    return "\n".join([head, '<rect width="100%" height="100%" rx="6" fill="#ffffff"/>',
                      '<g font-family="Helvetica, Arial, DejaVu Sans, sans-serif" font-size="13" text-anchor="middle">', *parts, "</g>", "</svg>", ""])


try:
    text = picture()
    if "--check" not in sys.argv[1:]:
        PICTURE.write_text(text)
    elif not PICTURE.exists() or PICTURE.read_text() != text:
        raise Wrong("docs/crates.svg is not what tools/dev/make-pages draws: run it")
except Wrong as wrong:
    print(wrong)
    sys.exit(1)
