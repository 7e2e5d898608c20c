"""What a session writes and shows, by PAINT (paint.c, built), the path that is the first word of a try."""
import collections
import itertools
import os
import subprocess
import sys

PAINT = os.path.abspath(sys.argv[1])
WAITING = 0
NOBODY, MENU, MENU_ITEM, BUTTON, FILE, SECTION, MARK, FOLD, DIALOG, ADDED, REMOVED, CONTEXT, MODE, BINARY, FILE_EDGE = range(15)

Frame = collections.namedtuple("Frame", "stage sent text rows")
Place = collections.namedtuple("Place", "symbol code key")


def frames_of(size, state, lines):
    """The frames that the session writes, one for each line of a script."""
    script = "\n".join(["size %d %d" % size, state, "script", *lines, ""])
    output = subprocess.run([PAINT], input=script.encode(), stdout=subprocess.PIPE, check=True).stdout
    frames, place = [], 0
    while place < len(output):
        end = output.index(b"\n", place)
        stage, *lengths = map(int, output[place:end].split()[1:])
        ends = list(itertools.accumulate([end + 1, *lengths]))
        sent, text, places = (output[begin:end] for begin, end in zip(ends, ends[1:]))
        frames.append(Frame(stage, sent, text, rows_of(text, places) if stage == WAITING else []))
        place = ends[-1]
    return frames


def rows_of(text, places):
    """The symbols of each row by their columns, each with its owner."""
    rows = [(line[1:-1], {}) for line in text.split(b"\n")[:-1]]
    ends = [0] * len(rows)
    for line in places.splitlines():
        row, column, length, code, *key = map(int, line.split())
        symbol = rows[row][0][ends[row]:ends[row] + length].decode()
        rows[row][1][column] = Place(symbol, code, tuple(key))
        ends[row] += length
    return [symbols for _, symbols in rows]


def line_of(kind, text, is_checked=False):
    return {"is_checked": is_checked, "change_type": kind, "line": text}
