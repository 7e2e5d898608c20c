#!/usr/bin/env python3
"""try_texts.py [COUNT]: hands in two versions of a file, and takes its sides back: COUNT random pairs of texts (5,000 if there is no
COUNT), and all pairs that the history of this repository changed, if git has it.

Before that it looks at the screen: each byte that is not part of UTF-8 is shown as U+FFFD, between other symbols.

With nothing marked the sides have to be the two versions, byte for byte, with everything marked the same exchanged, and with random
marks what `sides_by` makes of the lines one by one."""
import io
import json
import os
import random
import re
import subprocess
import sys

import scm

# lines of git's marker, of Latin-1, of CR alone, of a character that stands for a byte, and of a NUL
ALPHABETS = (
    (b"a\n", b"b\n", b"c\n"), (b"\\ No newline at end of file\n", b"\xe4\n", b"a\n"), (b"\r\n", b"a\rb\n", b"\n"),
    (b"\xf3\xa0\x82\x80\n", b"\x80\n", b"\xc3\xa4\n"), (b"\0\n", b"a\n", b"\n"),
)
ROOT = os.path.join(os.path.dirname(os.path.abspath(__file__)), os.pardir, os.pardir)
MODIFIED = re.compile(r"^:100\d+ 100\d+ (\w+) (\w+) M\t", re.M)


def joined(lines):
    """Returns the text of lines. One without a line end gets it where another follows."""
    return b"".join(line if line.endswith(b"\n") else line + b"\n" for line in lines[:-1]) + b"".join(lines[-1:])


def sides_by(kinds, marks, old, new):
    """Returns the selected side and the other one. `kinds` says of each line whether it is in the old text, and whether it is in the
    new one; each line that is not in both has a mark."""
    texts, marks, sides = (iter(io.BytesIO(old)), iter(io.BytesIO(new))), iter(marks), ([], [])
    for kind in kinds:
        line = [next(text) for text, has in zip(texts, kind) if has][0]
        is_marked = None if all(kind) else next(marks)
        for side, lines in zip((True, False), sides):
            if is_marked is None or (kind == (False, True)) == (is_marked == side):
                lines.append(line)
    return tuple(map(joined, sides))


def kinds_in(state):
    """Yields the kind of each line of the only file of a state in its JSON form."""
    for section in json.loads(state)["files"][0]["sections"]:
        for name, part in section.items():
            for line in part["lines"]:
                yield (True, True) if name == "Unchanged" else (line["change_type"] == "Removed", line["change_type"] == "Added")


def sides_of(session):
    return session.side_bytes(0), session.side_bytes(0, is_selected=False)


def mark(session, marks):
    """Marks the changed lines of the only file, of which none is marked yet, as a user does: line by line."""
    session.press("right", "down")
    for is_marked in marks:
        while session.selected.line == scm.NO_INDEX:
            session.press("down")
        session.press(*["space"] * is_marked, "down")


def check(old, new, chance):
    """Checks the sides of a pair of texts. Returns how many changed lines it has."""
    with scm.Session() as session:
        session.add_texts("f", old, new)
        assert sides_of(session) == (old, new)
        count = len(session.marks(0))
        session.begin(80, 24)
        marks = [chance.random() < 0.5 for _ in range(count)]
        mark(session, marks)
        assert session.marks(0) == marks
        found = sides_of(session)
        session.press("c")
        kinds = list(kinds_in(session.text().split("\n")[1]))
    assert found == sides_by(kinds, marks, old, new), (old, new, marks)
    with scm.Session() as session:
        session.add_texts("f", old, new)
        session.begin(80, 24)
        session.press("shift-A")
        assert sides_of(session) == (new, old)
    return count


def text_by(chance):
    """Returns a text of a few lines. Its last line may have no line end."""
    alphabet = chance.choice(ALPHABETS)
    text = b"".join(chance.choice(alphabet) for _ in range(chance.randrange(9)))
    return text[:-1] if chance.random() < 0.5 else text


def git(*words, given=b""):
    return subprocess.run(["git", "-C", ROOT, *words], input=given, stdout=subprocess.PIPE, check=True).stdout


def history():
    """Yields the old and the new bytes of each file that a commit of this repository modified."""
    log = git("log", "--format=", "--raw", "--no-abbrev", "--no-renames", "HEAD")
    pairs = sorted(set(MODIFIED.findall(log.decode(errors="replace"))))
    output = io.BytesIO(git("cat-file", "--batch", given="".join("%s\n%s\n" % pair for pair in pairs).encode()))
    for _ in pairs:
        yield tuple(output.read(int(output.readline().split()[2]) + 1)[:-1] for _ in (0, 1))


def shown(session, width, height):
    """Returns the rows of the screen as texts."""
    return ["".join(session.symbol(row, column) for column in range(width)) for row in range(height)]


def check_shown():
    """Checks what the screen shows of each byte from 128 to 255."""
    lines = [b"".join(b"%c%c" % (letter, first + at) for at, letter in enumerate(b"abcdefgh")) for first in range(128, 256, 8)]
    with scm.Session() as session:
        session.add_texts("f", b"", b"\n".join(lines))
        session.begin(80, 24)
        session.press("right")
        rows = [row for row in shown(session, 80, 24) if "a\ufffdb\ufffdc\ufffdd\ufffde\ufffdf\ufffdg\ufffdh\ufffd" in row]
    assert len(rows) == len(lines), rows


def main():
    check_shown()
    count, chance = int(sys.argv[1]) if len(sys.argv) > 1 else 5000, random.Random(1)
    changed = sum(check(text_by(chance), text_by(chance), chance) for _ in range(count))
    print("%d random pairs of texts with %d changed lines" % (count, changed))
    try:
        pairs = list(history())
    except (OSError, subprocess.CalledProcessError):
        print("skipped: the history of the repository, as git has none")
        return
    print("%d pairs of the history with %d changed lines" % (len(pairs), sum(check(*pair, chance) for pair in pairs)))


main()
