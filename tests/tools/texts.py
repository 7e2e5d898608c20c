"""Texts line by line, for tools/dev/try-tools: each pair of a section, and random texts."""
import os
import random
import re

import changed
import choices
import options
from choosing.records import record, records_in
from places import Repository, Typed

OLD = [b"def f%d(x):\n" % number for number in range(10)]
NEW = [b"def f%d(x, y):\n" % number for number in range(10)]
# lines of git's marker, of Latin-1, of CR alone, and of the character that stands for a byte
ALPHABETS = (
    (b"a\n", b"b\n", b"c\n"), (b"\\ No newline at end of file\n", b"\xe4\n", b"a\n"), (b"\r\n", b"a\rb\n", b"\n"),
    (b"\xf3\xa0\x82\x80\n", b"\x80\n", b"\xc3\xa4\n"),
)
FILES, SEEDS = 500, 4
COUNTS = re.compile(rb"(\d{4})\xc2\xa0\(\+(\d+) -(\d+)\)")


def each_pair_of_a_section(place):
    """In a section of ten changed lines a pair is marked, the old line and the new one: that line is replaced in its place. Staged, taken
    back and printed."""
    repository = Repository(place, {"a": b"".join(OLD)}, {"a": b"".join(NEW)})
    left, right = place.folder("left", {"a": b"".join(OLD)}), place.folder("right", {"a": b"".join(NEW)})
    ends = []
    for number in range(len(OLD)):
        keys = ["l", "l", *["j"] * (2 * number), "space", "j", "space", "c"]
        wanted = b"".join([*OLD[:number], NEW[number], *OLD[number + 1 :]])
        ends.append(repository.select(keys=keys)[0] == 0 and repository.index_files() == {"a": wanted})
        repository.git("reset", "--quiet")
        output = place.folder("output")
        ends.append(place.type(["gabrosty-diff-editor", "-o", output, left, right], keys)[0] == 0)
        ends.append(options.changed.read(output) == {"a": wanted})
    return all(ends) and repository.is_sound()


def text_by(chance):
    """Returns a text of a few lines. Its last line may have no line end."""
    alphabet = chance.choice(ALPHABETS)
    text = b"".join(chance.choice(alphabet) for _ in range(chance.randrange(8)))
    return text[:-1] if chance.random() < 0.5 else text


def lines_in(text):
    return text.count(b"\n") + (text[-1:] not in (b"", b"\n"))


def edited_by(chance, text):
    """Returns a text in which some lines of another one are gone, and lines that it does not have are between the others."""
    kept = (line for line in text.splitlines(keepends=True) if chance.random() < 0.8)
    return b"".join(line + b"%d\n" % chance.randrange(20) * (chance.random() < 0.3) for line in kept)


def pairs_for_counts():
    """Yields pairs of texts that differ. Some have lines in another order, some repeat lines, and some have other lines alone."""
    chance = random.Random(5)
    while True:
        old = b"".join(b"%d\n" % chance.choice((chance.randrange(9), chance.getrandbits(30))) for _ in range(chance.randrange(1, 90)))
        new = edited_by(chance, old) if chance.random() < 0.7 else text_by(chance)
        if new != old:
            yield old, new


def the_counts_of_lines(place):
    """Behind each path stands how many lines come and go: as many as can be marked."""
    pairs = [pair for pair, _ in zip(pairs_for_counts(), range(FILES))]
    handed, accepted = (os.path.join(place.top, name) for name in ("handed", "accepted"))
    files = ((("path", "%04d" % number), ("old-mode", "100644"), ("old", old), ("new-mode", "100644"), ("new", new))
             for number, (old, new) in enumerate(pairs))
    changed.write_file(handed, b"".join(record(*it) for file in files for it in file))
    changed.write_file(accepted, b"")
    typed = Typed(["scm-select", "--changes", handed, accepted], 80, FILES + 9, place.environment, place.top)
    counts = [(int(come), int(go)) for _, come, go in sorted(COUNTS.findall(typed.screen()))]
    typed.press("c")
    is_accepted = typed.end() == 0
    marks = [len(data) for word, data in records_in(changed.read_file(accepted)) if word == "marks"]
    sizes = [lines_in(new) - lines_in(old) for old, new in pairs]
    return is_accepted and [come + go for come, go in counts] == marks and [come - go for come, go in counts] == sizes


def random_folders(seed):
    """Returns two tables of files with random texts. A file may be in one of them alone."""
    chance, old, new = random.Random(seed), {}, {}
    for number in range(FILES):
        for side in (old, new):
            if chance.random() < 0.95:
                side["%04d" % number] = text_by(chance)
    return old, new


def tries():
    """Yields what is tried: its words, and what is called with a place and with what follows."""
    yield "each pair of a section", each_pair_of_a_section
    yield "the counts of lines", the_counts_of_lines
    for seed in range(SEEDS):
        old, new = random_folders(seed)
        yield "random texts, all and nothing, by %d" % seed, options.edit_folders, old, new
        yield "random texts, some, by %d" % seed, choices.some_in_folders, seed, old, new
