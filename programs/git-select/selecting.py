"""Shows changed lines of a git repository in the terminal, and stages those that you mark.

Without an option it shows how the working tree differs from the index, and adds the marked changes to the index. Changes
that are staged already stay staged. Nothing is written before you accept."""
import contextlib
import os
import sys
import time

from choosing.accepted import kept_in, take_up
from choosing.faults import ending, step
from choosing.front_end import EPILOGUE, FileChanged, choices_in, choose, keep
from choosing.program import leave, run
from choosing.said import say, tell
from choosing.signals import signals_wait
from choosing.waiting import counted, waits
from choosing.words import HalfDone, Stop, shown
from lock import Lock, check_free, is_left_at, words_on_copied
from look import FILES
from options import FINISH, UNDO, class_of, following, options_of, without_words
from repository import Repository
from scratch import Scratch
from sides import read_changes
from ways import WORKING_TREE

# how a restore that was cut off is mended, and what is said of its files then
MENDS = {FINISH: "written", UNDO: "as it was"}


def start_folder(repository):
    """Returns the folder that the user is in. Git runs an alias in the top folder, and says in a variable from where."""
    here = repository.begun.top
    inner = os.path.join(here, os.environ.get("GIT_PREFIX", ""))
    return inner if os.path.samefile(here, repository.top) and os.path.isdir(inner) else here


def read(way, begun):
    """Returns what is changed. Names what is left out. `begun` says since when the user waits."""
    way.times_read += 1
    scratch = Scratch(way.repository, os.path.join(way.folder, "before-%d" % way.times_read))
    with waits("looking for changes ..", begun):
        sides, notes = way.read(scratch)
    say_each(notes)
    with waits("reading %s .." % counted(len(sides), "file"), begun):
        changes = read_changes(scratch, sides)
    name_files(way, changes)
    for change in changes if way.options.ignore_all_space else ():
        # lines that differ by blanks alone stay as they are now
        change.blanks_of = way.use.now
    return changes


def name_files(way, changes):
    """Has changes name the files of the working tree that are their new versions: the user may open these in an editor."""
    for change in changes if way.use.new_in == WORKING_TREE else ():
        if change.new.mode in FILES:
            change.file = os.fsencode(change.path)


def take_up_marks(changes, kept):
    """Gives changes the marks that were kept. Names the files that changed since."""
    say_each("%s has changed: its marks are not taken up" % path for path in take_up(changes, kept))


def check_unchanged(choices, sides):
    """Stops if a chosen file is not as it was shown. `sides` has, by path, what differs now."""
    for change in (choice.change for choice in choices):
        if sides.get(change.path) != (change.old, change.new):
            raise Stop("%s changed meanwhile" % shown(change.path))


def open_way(repository, options, folder):
    """Returns the way that the options name, over the repository of the current folder. Stops if it can be seen already that it
    leads nowhere."""
    start = start_folder(repository) if options.paths else repository.top
    repository.open(start)
    with left_in(repository) as found:
        if found:
            raise Stop(words_on(found))
    check_free(repository.index)
    repository.check_writable()
    way = class_of(options.way)(repository, options, start, folder)
    if "the files" in way.use.writes:
        repository.room.check()
    way.check()
    if options.edit:
        from edit import editor_of

        editor_of(repository)
    repository.check_paths(options.paths, start, way.tree_before())
    return way


@contextlib.contextmanager
def left_in(repository):
    """Gives the change of files that was cut off, or None if there is none. What reads plans is loaded only where some may be kept."""
    with repository.room.found() as kept:
        may_be_kept = kept is not None
    if not may_be_kept:
        yield None
        return
    from choosing.cut_off import cut_off

    with cut_off(repository.files()) as found:
        yield found


def words_on(found):
    """Returns what is said of a change of files that was cut off."""
    if not found.entries:
        return "%s was left by a restore that was cut off, and is not needed: git select --undo removes it" % shown(found.path)
    done, count = found.progress()
    words = "a restore was cut off, with %d of %s written (%s): git select --finish writes the others, --undo takes it back"
    return words % (done, counted(count, "file"), shown(found.path))


def mend(repository, options, folder):
    """Finishes or undoes a change of files that was cut off, and returns the status."""
    with signals_wait(), left_in(repository) as found:
        if not found and (options.way == FINISH or not is_left_at(repository.index)):
            raise Stop(words_on_copied(repository.index) or "there is no restore that was cut off")
        repository.check_same()
        with Lock(repository.index, os.path.join(folder, "index"), takes_left=True):
            entries, notes = getattr(found, options.way)() if found else ([], [])
        tell(["%s: %s" % (MENDS[options.way], shown(entry.path)) for entry in entries] + notes, "all is done")
    return 0


def write(way, choices, accepted):
    """Puts `choices` in place, if all is as it was shown. Returns what to report, and the program's status."""
    with way.locked_index() as lock:
        # nothing is written yet, so a signal ends this at once
        with signals_wait(False), waits("looking at %s once more .." % counted(len(choices), "file")):
            way.prepare(choices, accepted)
            scratch = Scratch(way.repository, os.path.join(way.folder, "after"))
            # first, so that what is stored is what is as it was shown
            unread = way.unread_sides(choices, scratch)
            check_unchanged(choices, way.read(scratch, {choice.change.path for choice in choices})[0])
            for change, side in unread.items():
                change.new = side
        reports, is_partial = way.write(choices, scratch, accepted, lock)
    return reports, 1 if is_partial else 0


def use(way, accepted):
    """Puts in place what was accepted, and returns the status. What is begun comes to its end before a signal is heard, and before
    anything is said of it. If something is refused, the marks are kept."""
    with signals_wait():
        try:
            choices = choices_in(accepted, way.use.side, way.use.now)
            if way.options.edit and choices:
                from edit import edited

                # nothing is written yet, so a signal ends this at once
                with signals_wait(False):
                    choices = edited(choices, way)
            reports, status = write(way, choices, accepted) if choices else (["nothing was marked, and " + way.nothing], 0)
        except Exception as error:
            say_each(way.notes)
            say(ending(error, "written by then: " + ", ".join(way.written) if way.written else way.nothing))
            if not way.written and not isinstance(error, HalfDone):
                keep(accepted.kept(), words_again(way))
            return 1
        say_each(way.notes)
        tell(reports, "what was marked is %s, but its names cannot be written" % way.done if choices else way.nothing)
        return status


def say_each(lines):
    for line in lines:
        say(line)


def words_again(way):
    """Returns the command that takes up marks of this choice."""
    return [*way.words, "-w"] if way.options.ignore_all_space else way.words


def looks(way):
    """Returns the variables by which the front end says what the key `c` does, and opens all files that fit on its screen."""
    return {"SELECT_ACCEPT": "c %s%s" % (way.accepts, way.along()), "SELECT_START": os.environ.get("SELECT_START") or "fit"}


def select(options, folder):
    """Shows what is changed, uses what is chosen, and returns the status. If another choice follows, it is made of what is left then, if
    all that was marked is done. `folder` is for temporary files."""
    status = select_once(options, folder)
    if status or not options.then:
        return status
    folder = os.path.join(folder, "then")
    os.mkdir(folder, 0o700)
    return select_once(following(options), folder)


def select_once(options, folder):
    """Does this for one choice."""
    begun = time.monotonic()
    with step("looking for the repository"):
        repository = Repository(os.getcwd())
    if options.way in MENDS:
        return mend(repository, options, folder)
    with step("looking what can be done"):
        way = open_way(repository, options, folder)
    kept = kept_in(options.marks) if options.marks else {"messages": [], "files": []}
    found = show(way, kept, folder, begun)
    while isinstance(found, FileChanged):
        found = show(way, found.kept, folder, time.monotonic())
    return use(way, found) if found else 0


def show(way, kept, folder, begun):
    """Shows what is changed, with the marks that were kept. Returns what was accepted, or FileChanged, or None if nothing is changed."""
    changes = read(way, begun)
    if not changes:
        say(way.empty())
        return None
    take_up_marks(changes, kept)
    task = "%s, c %s" % (counted(len(changes), "file"), way.task())
    messages = way.messages("".join(kept["messages"][:1]))
    say_each(way.before())
    marks = way.options.marks
    failed = "the marks were those of %s: nothing changed" % shown(marks) if marks else None
    more = {"environment": {**looks(way), **way.environment()}, "words": words_again(way), "files_folder": os.path.abspath(way.repository.top)}
    return choose(changes, folder, "nothing changed", task, messages, failed, **more)


def main():
    words = sys.argv[1:]
    options = options_of(words, __doc__, EPILOGUE) if words else without_words()
    leave(run(lambda folder: select(options, folder)))
