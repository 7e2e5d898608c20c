"""Shows the changes from one folder or file to another in the terminal. RIGHT then has what LEFT has with the changes that you
mark, and no others. With --output they go to OUTPUT, and RIGHT stays as it is.

It is a diff editor of jj (ui.diff-editor), and a tool of git difftool and of hg extdiff. LEFT is not written to, and nothing is
written before the choice is accepted. If something is refused, all of RIGHT and OUTPUT stays as it was."""
import os
import sys
import time

from choosing.accepted import kept_in, take_up
from choosing.arguments import Arguments
from choosing.change import ABSENT, LINK, Change, NO_FILES, Read
from choosing.cut_off import cut_off
from choosing.faults import ending
from choosing.front_end import EPILOGUE, FILE_CHANGED, FileChanged, ask, choices_in, choose, file_changed, keep, keep_lost
from choosing.program import leave, run
from choosing.said import say, tell
from choosing.signals import signals_wait
from choosing.waiting import counted, waits
from choosing.words import HalfDone, Stop, printable, shown, version_of
from compared import compared, is_folder, target_of
from told import conflict_note, has_conflict, title_of

NOTHING = "nothing was written"


def read_options():
    reader = Arguments("gabrosty-diff-editor", __doc__, EPILOGUE)
    reader.add_argument("--version", action="version", version=version_of("gabrosty-diff-editor"))
    reader.add_argument("-d", "--dir-diff", action="store_true", help="LEFT and RIGHT have to be folders")
    reader.add_argument("-o", "--output", metavar="OUTPUT", help="write what is chosen to this folder or file, and leave RIGHT")
    reader.add_argument("--mark-all", action="store_true", help="begin with every change marked")
    reader.add_argument("--marks", metavar="FILE", help="take up the marks that were kept in this file")
    reader.add_argument("-w", "--ignore-all-space", action="store_true", help="leave lines that differ by blanks alone as LEFT has them")
    how = reader.add_mutually_exclusive_group()
    how.add_argument("--read-only", action="store_true", help="show the changes; nothing can be marked, and nothing is written")
    how.add_argument("--dry-run", action="store_true", help="say what would be written, and write nothing")
    how.add_argument("--finish", dest="mend", action="store_const", const="finish", help="finish writing that was cut off")
    how.add_argument("--undo", dest="mend", action="store_const", const="undo", help="undo writing that was cut off")
    reader.add_argument("left", metavar="LEFT", help="the folder or the file with what is old")
    reader.add_argument("right", metavar="RIGHT", help="the folder or the file with what is new, which is changed")
    options = reader.parse_args()
    if options.output == "":
        reader.error("OUTPUT is empty")
    return options


def change_of(path, pair):
    """Returns what a file has changed, by its two sides: modes with bytes, which have the names that git would give them."""
    return Change(path, [Read(mode, data, "sha1") for mode, data in pair], {})


def read(sides, options):
    """Returns what differs between two sides. Names what is left out, and each file with a conflict."""
    begun = time.monotonic()
    with waits("looking for changes ..", begun):
        pairs, left_out = sides.differing()
    for path, reason in sorted(left_out.items()):
        say("%s is left out: %s" % (shown(path), reason))
    with waits("reading %s .." % counted(len(pairs), "file"), begun):
        changes = [change_of(path, pair) for path, pair in pairs.items()]
    for change in changes:
        # the user may open its new version in an editor
        change.file = b"" if change.new.mode in NO_FILES else os.fsencode(change.path)
        change.blanks_of = "old" if options.ignore_all_space else ""
    for change in filter(has_conflict, changes):
        say(conflict_note(change))
        change.note = "conflict markers"
    return changes


def warn_of_added(changes):
    """Says what comes of files that are new, and are not marked, in a folder that hg copies back."""
    added = [shown(change.path) for change in changes if change.old.mode == ABSENT]
    if added:
        more = " and %s more" % counted(len(added) - 1, "file") if added[1:] else ""
        words = "%s%s new: mark all that is new, since hg ends where a new file is gone, and copies only some files back"
        say(words % (added[0] + more, " are" if more else " is"))


def described(path, mode, data):
    """Returns the line of --dry-run for a file that would be written or removed."""
    if mode == ABSENT:
        return "would remove: %s" % shown(path)
    what = "a link to %s" % shown(os.fsdecode(data)) if mode == LINK else "mode %s, %s" % (mode, counted(len(data), "byte"))
    return "would write: %s (%s)" % (shown(path), what)


def write(sides, choices, is_dry):
    """Puts `choices` in place, or with `is_dry` says what would be. Returns what is said of what cannot be removed behind that."""
    entries = sides.entries(choices)
    if is_dry:
        tell([described(path, *new) for path, _, new in entries] or ["would write nothing"], NOTHING)
        return []
    git = sides.git_that_keeps()
    if git:
        keep_lost(git, entries)
    return sides.target.change(entries, sides.sources, sides.folders_for(entries))


def words_on(found):
    """Returns what is said of writing that was cut off, as by a loss of power."""
    if not found.entries:
        return "%s was left by writing that was cut off, and is not needed: --undo removes it" % shown(found.path)
    done, count = found.progress()
    words = "writing was cut off, with %d of %s written (%s): --finish writes the others, --undo takes it back"
    return words % (done, counted(count, "file"), shown(found.path))


def mend(target, way):
    """Finishes or undoes a change of the files `target` that was cut off, and returns the status."""
    with signals_wait(), cut_off(target) as found:
        if not found:
            raise Stop("there is no writing that was cut off")
        word = {"finish": "written", "undo": "as it was"}[way]
        entries, notes = getattr(found, way)()
        tell(["%s: %s" % (word, shown(entry.path)) for entry in entries] + notes, "all is done")
    return 0


def words_again(words):
    """Returns the command that takes up marks, made of the words of this one: their file comes behind them."""
    import shlex

    numbers = {at + more for at, word in enumerate(words) if word == "--marks" for more in (0, 1)}
    left = [word for at, word in enumerate(words) if at not in numbers and not word.startswith("--marks=")]
    return ["gabrosty-diff-editor", *(printable(shlex.quote(word)) for word in left)]


def chosen(changes, sides, options, folder, kept):
    """Has the user choose among `changes`, with the marks that were kept: `kept`, or those that the user names. Returns what was accepted, or
    FileChanged."""
    is_kept = bool(kept or options.marks)
    kept = kept or (kept_in(options.marks) if options.marks else {"files": []})
    for path in take_up(changes, kept):
        say("%s has changed: its marks are not taken up" % path)
    title = title_of(sides.instructions()) or "mark what %s is to have" % ("OUTPUT" if options.output else "RIGHT")
    failed = "the marks were those of %s: %s" % (shown(options.marks), NOTHING) if options.marks else None
    # the marks that were kept have those of --mark-all already
    settings = ["mark-all"] if options.mark_all and not is_kept else []
    more = {"settings": settings, "words": words_again(sys.argv[1:]), "files_folder": sides.files_folder()}
    return choose(changes, folder, NOTHING, title, failed=failed, **more)


def use(sides, accepted, options):
    """Puts in place what was accepted, or None if nothing differs, and returns the status. If something is refused, the marks are kept."""
    try:
        notes = write(sides, choices_in(accepted, "selected", "new") if accepted else [], options.dry_run)
    except (Stop, OSError) as error:
        say(ending(error, NOTHING))
        if accepted and not isinstance(error, HalfDone):
            keep(accepted.kept(), words_again(sys.argv[1:]))
        return 1
    for note in notes:
        say(note)
    return 0


def check_writable(target):
    """Stops if a change of the files `target` was cut off, or if no plan of another one can be kept."""
    target.room.check()
    with cut_off(target) as found:
        if found:
            raise Stop(words_on(found))


def edit(options, folder):
    """Shows what differs, puts in place what is chosen, and returns the status. `folder` is for temporary files."""
    are_folders = is_folder(options)
    target = target_of(options, are_folders)
    if options.mend:
        return mend(target, options.mend)
    if not options.read_only and not options.dry_run:
        check_writable(target)
    found = show(options, are_folders, target, folder, None)
    while isinstance(found, FileChanged):
        found = show(options, are_folders, target_of(options, are_folders), folder, found.kept)
    return found


def show(options, are_folders, target, folder, kept):
    """Shows what differs, with the marks `kept` of a choice that ended, if any, and puts in place what is chosen. Returns the status, or FileChanged."""
    sides = compared(options, target, are_folders)
    changes = read(sides, options)
    if not options.read_only and not options.dry_run and sides.is_copied_back():
        warn_of_added(changes)
    if not changes and (options.read_only or not options.output):
        say("there is nothing to choose")
        return 0
    if options.read_only:
        return show_alone(changes, sides, options, folder)
    accepted = chosen(changes, sides, options, folder, kept) if changes else None
    return accepted if isinstance(accepted, FileChanged) else use(sides, accepted, options)


def show_alone(changes, sides, options, folder):
    """Shows changes that cannot be marked. Returns the status, or FileChanged."""
    settings = ["read-only", *(["mark-all"] if options.mark_all else [])]
    status, left = ask(changes, folder, "what RIGHT has changed", settings=settings, files_folder=sides.files_folder())
    return file_changed(left, changes) if status == FILE_CHANGED else 0 if status in (0, 1) else 1


def main():
    options = read_options()
    leave(run(lambda folder: edit(options, folder)))
