"""What is said where a program meets what nobody thought of: at which step, and where in its sources."""
import contextlib
import os

from .words import HalfDone, Stop, printable, words_of

steps = ["starting"]  # what is being done: the last one counts, and stays the last one where it fails


@contextlib.contextmanager
def step(words):
    """Has a fault in this block say that it came at `words`."""
    steps.append(words)
    yield
    steps.pop()


def reason_of(error):
    """Returns what an error says, in one line: of a fault of the program itself its step and its place too."""
    if isinstance(error, (Stop, OSError)):
        return words_of(error)
    import traceback

    place = traceback.extract_tb(error.__traceback__)[-1]
    what, name = printable("%s: %s" % (type(error).__name__, error)), os.path.basename(place.filename)
    return "a fault of this program at the step \"%s\" (%s in line %d of %s)" % (steps[-1], what, place.lineno, name)


def ending(error, nothing):
    """Returns what an error says, and behind it the words `nothing` if all is as it was."""
    return reason_of(error) if isinstance(error, HalfDone) else "%s: %s" % (reason_of(error), nothing)


@contextlib.contextmanager
def half_done(words):
    """Has an error in this block say `words` first, of what is done by then."""
    try:
        yield
    except HalfDone:
        raise
    except Exception as error:
        raise HalfDone("%s: %s" % (words, reason_of(error))) from None
