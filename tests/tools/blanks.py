"""Changes of blanks that are left out by -w: they stay as they are, whatever is marked."""
import os

import changed
from places import Repository
from typed import Typed

# the first and the third line differ by blanks alone
OLD = b"if x:\n    y\nz\nlast line\n"
NEW = b"if  x:\n    other\nz \t\r\nlast line\nadded\n"
CHOSEN = b"if x:\n    other\nz\nlast line\nadded\n"
# what stays of NEW where all changes that are shown are taken back
TAKEN_BACK = b"if  x:\n    y\nz \t\r\nlast line\n"
# from the file to its second section
TO_THE_ADDED_LINE = "F", "j", "j", "j", "j"
NAMES = {"app.py": OLD, "other.py": b"x\n"}
EDITS = {"app.py": NEW, "other.py": b"x \n"}


def repository_of(place):
    return Repository(place, NAMES, EDITS)


def blanks_are_not_staged(place):
    """All that is shown is staged; lines that differ by blanks alone stay as the index has them, and in the working tree as they are."""
    for words in (["-w"], ["--ignore-all-space"]):
        repository = Repository(place, NAMES, EDITS, "by" + words[0])
        status, said = repository.select(*words, keys=["a", "c"])
        is_staged = repository.index_files() == {**NAMES, "app.py": CHOSEN}
        if status or not is_staged or said != "staged: app.py\n" or repository.files() != EDITS or not repository.is_sound():
            return False
    return True


def blanks_alone_are_nothing(place):
    """Where only blanks differ, nothing can be marked, and nothing is staged."""
    repository = Repository(place, NAMES, {**NAMES, "other.py": b"x \n"})
    status, said = repository.select("-w", keys=["a", "c"])
    return (status, said) == (0, "nothing was marked, and nothing was staged\n") and repository.index() == repository.index_of()


def blanks_stay_staged(place):
    """What is marked is taken out of the index; lines that differ by blanks alone stay as it has them."""
    repository = repository_of(place)
    repository.git("add", "--all")
    status, _ = repository.select("--unstage", "-w", keys=["a", "c"])
    return status == 0 and repository.index_files() == {**EDITS, "app.py": TAKEN_BACK} and repository.files() == EDITS


def blanks_are_not_restored(place):
    """What is marked is taken back in the working tree; lines that differ by blanks alone stay there. One line alone is taken back, too."""
    repository = repository_of(place)
    status, _ = repository.select("--restore", "-w", keys=["a", "c"])
    is_back = status == 0 and repository.files() == {**EDITS, "app.py": TAKEN_BACK}
    again = Repository(place, NAMES, EDITS, "again")
    status, _ = again.select("--restore", "-w", keys=[*TO_THE_ADDED_LINE, "space", "c"])
    return is_back and status == 0 and again.files() == {**EDITS, "app.py": NEW.replace(b"added\n", b"")}


def blanks_are_not_committed(place):
    """A commit has what is marked, and not the blanks."""
    repository = repository_of(place)
    status, _ = repository.select("--commit", "-w", "-m", "A message", keys=["a", "c"])
    return status == 0 and repository.files_of("HEAD") == {**NAMES, "app.py": CHOSEN} and repository.files() == EDITS


def blanks_of_a_split(place):
    """The first commit has no blanks, and the second one is the last commit as it was."""
    repository = repository_of(place)
    repository.commit()
    status, _ = repository.select("--split", "-w", keys=["a", "c"])
    return status == 0 and repository.files_of("HEAD^") == {**NAMES, "app.py": CHOSEN} and repository.files_of("HEAD") == EDITS


def blanks_are_in_a_stash(place):
    """A stash has changes of blanks, so -w is refused there, also behind another choice."""
    repository = repository_of(place)
    said = [place.call("git", "select", *words, folder=repository.folder) for words in (["-w", "--stash"], ["-w", "--then=stash"])]
    are_refused = all(status == 2 and "a stash has changes of blanks, too" in words for status, words in said)
    return are_refused and repository.files() == EDITS and repository.is_sound()


def marks_without_blanks(place):
    """Marks that were kept with -w are taken up with it alone: without it there are other items. The command that is said has it."""
    repository = repository_of(place)
    repository.git("config", "core.editor", "false")
    status, said = repository.select("-w", "--edit", keys=[*TO_THE_ADDED_LINE, "space", "c"])
    command = said[said.index("git-select -w --marks ") :].split()
    without, _ = repository.select("--marks", command[-1], keys=["c"])
    kept = repository.index() == repository.index_of()
    repository.git("config", "core.editor", "true")
    taken, _ = repository.select("-w", "--marks", command[-1], keys=["c"])
    place.forget_marks()
    wanted = {**NAMES, "app.py": OLD + b"added\n"}
    return (status, without, taken) == (1, 0, 0) and kept and repository.index_files() == wanted


def blanks_on_the_screen(place):
    """The row of a file says how many lines differ by blanks alone; these are shown as they stay, and are no items."""
    left, right = place.folder("left", NAMES), place.folder("right", EDITS)
    typed = Typed(["gabrosty-diff-editor", "-w", left, right], 80, 24, place.environment, place.top)
    typed.press("F")
    screen = typed.screen()
    typed.press("q")
    typed.end()
    rows = [b"app.py\xc2\xa0(+2 -1, 2 lines differ by blanks alone)", b"other.py\xc2\xa0(1 line differs by blanks alone)"]
    return all(row in screen for row in rows) and b"1 if x:" in screen and b"+     other" in screen and b"if  x:" not in screen


def blanks_of_left(place):
    """RIGHT has what LEFT has, with the marked changes: the blanks are those of LEFT. scm-select does the same."""
    for command in (["gabrosty-diff-editor", "-w"], ["scm-select", "-w", "-d"]):
        left, right = place.folder("left", NAMES), place.folder("right", EDITS)
        status = place.type([*command, left, right], ["a", "c"])[0]
        if status or changed.read(right) != {**NAMES, "app.py": CHOSEN} or changed.read(left) != NAMES:
            return False
    old, new, output = (os.path.join(place.top, name) for name in ("old", "new", "output"))
    changed.write_file(old, OLD)
    changed.write_file(new, NEW)
    ends = [place.type(["scm-select", "-w", "-o", output, old, new], keys)[0] for keys in (["c"], ["a", "c"])]
    return ends == [0, 0] and changed.read_file(output) == CHOSEN


ALL = (
    blanks_are_not_staged, blanks_alone_are_nothing, blanks_stay_staged, blanks_are_not_restored, blanks_are_not_committed, blanks_of_a_split,
    blanks_are_in_a_stash, marks_without_blanks, blanks_on_the_screen, blanks_of_left,
)
