"""How long `git select` takes until its first screen, as it is installed: with 10, 1,000 and 10,000 files of forty lines, of which two
changed in each; with a file in which 100,000 lines became 100,000 others; and with one in which each tenth of 100,000 lines changed. And
how long it takes until all of 10,000 files are marked, accepted and staged."""
import os
import random
import resource
import shutil
import subprocess
import sys
import tempfile
import time

HERE = os.path.dirname(os.path.abspath(__file__))
sys.dont_write_bytecode = True
sys.path.insert(1, os.path.join(HERE, os.pardir, os.pardir, "tests", "terminal"))
from apart import SETTINGS  # noqa: E402
from typed import Typed  # noqa: E402

# the columns of its table
HEAD = "What changed, and where it is installed", "Seconds, the median", "The least", "Processor seconds"
RUNS = 5
# how long the files lie there before they are looked at, in seconds. One that was written within the last two is read again after the choice, as
# git does; but who chooses among files has not written all of them right before
REST = 3
GIVE_UP, ACCEPT_ALL = b"q", b"Ac"
chance = random.Random(1)


def line():
    return b"%08x\n" % chance.getrandbits(32)


def lines(count):
    return [line() for _ in range(count)]


def with_others(text, places):
    """Returns the lines of a text with others at these places."""
    changed = list(text)
    for place in places:
        changed[place] = line()
    return changed


def shapes():
    """Yields what is timed: its words, for each path the lines before and after, and what is typed, one after another."""
    for count, keys in (10, [GIVE_UP]), (1_000, [GIVE_UP]), (10_000, [GIVE_UP, ACCEPT_ALL]):
        files = {"%02d/%05d" % (number % 40, number): lines(40) for number in range(count)}
        yield "%s files" % format(count, ","), {path: (text, with_others(text, (5, 25))) for path, text in files.items()}, keys
    yield "200,000 changed lines in one section", {"a": (lines(100_000), lines(100_000))}, [GIVE_UP]
    text = lines(100_000)
    yield "20,000 changed lines in 10,000 sections", {"a": (text, with_others(text, range(0, 100_000, 10)))}, [GIVE_UP]


def write(folder, files, side):
    """Writes a side of the files, the new one ten seconds after the old one: files of one size and second are the same for an index that is copied."""
    written = time.time() - 20 + 10 * side
    for path, both in files.items():
        place = os.path.join(folder, path)
        os.makedirs(os.path.dirname(place), exist_ok=True)
        with open(place, "wb") as file:
            file.write(b"".join(both[side]))
        os.utime(place, (written, written))


def make(folder, files):
    """Makes a repository whose working tree has the files as they are afterwards. They have their rest then."""
    write(folder, files, 0)
    for words in (["init", "--quiet"], ["add", "--all"], ["commit", "--quiet", "--message=base"]):
        subprocess.run(["git", *words], cwd=folder, env={**os.environ, **SETTINGS}, check=True)
    write(folder, files, 1)
    time.sleep(REST)


def processor_seconds():
    used = resource.getrusage(resource.RUSAGE_CHILDREN)
    return used.ru_utime + used.ru_stime


def run(prefix, folder, keys):
    """Returns after how many seconds the first screen is there, and how many processor seconds the program takes, into which `keys` are
    typed then. The index is as it was before."""
    index = os.path.join(folder, ".git/index")
    shutil.copyfile(index, index + ".before")
    path = os.path.join(os.path.abspath(prefix), "bin") + os.pathsep + os.environ["PATH"]
    begun, used = time.monotonic(), processor_seconds()
    typed = Typed(["git", "select"], 80, 24, {**SETTINGS, "PATH": path, "PYTHONDONTWRITEBYTECODE": "1"}, folder)
    taken = time.monotonic() - begun
    typed.write(keys)
    typed.end()
    os.replace(index + ".before", index)
    return taken, processor_seconds() - used


def rows(prefixes):
    """Yields for each shape and prefix the median and the least of some runs in seconds, and the least of processor seconds, which other work on
    the machine changes less."""
    for words, files, each in shapes():
        with tempfile.TemporaryDirectory(prefix="measure-") as folder:
            make(folder, files)
            for keys in each:
                # one prefix after another, so that other work on the machine falls on all of them
                runs = [[run(prefix, folder, keys) for prefix in prefixes] for _ in range(RUNS)]
                more = ", all marked and accepted" if keys == ACCEPT_ALL else ""
                for prefix, of_prefix in zip(prefixes, zip(*runs)):
                    taken, used = map(sorted, zip(*of_prefix))
                    yield "%s%s, %s" % (words, more, prefix), ["%.2f" % it for it in (taken[RUNS // 2], taken[0], used[0])]
