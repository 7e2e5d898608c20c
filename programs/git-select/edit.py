"""The user's editor on what is chosen of a file, before it is put in place."""
import os

from choosing.change import ABSENT
from choosing.faults import step
from choosing.git import run_in_terminal
from choosing.words import Stop, shown
from ways import file_of

# how long the end of a file's name is that the editor is given, to see what kind of file it is
NAME_BYTES = 200


def editor_of(repository):
    """Returns the command of the user's editor, as git finds it. Stops if there is none."""
    editor = repository.editor()
    if editor is None:
        raise Stop("git finds no editor: see git var GIT_EDITOR")
    return editor


def is_whole(choice):
    """Whether a choice has the contents of one version, or none."""
    file = file_of(choice.change)
    return choice.mode == ABSENT or choice.data in (file.old_data, file.new_data)


def edited(choices, way):
    """Returns `choices`, with those contents that are no whole version as the user's editor leaves them, one after another. Leaves out
    what is as it was then. Stops if the editor fails, or leaves an empty file."""
    command, folder = editor_of(way.repository), os.path.join(way.folder, "edit")
    os.mkdir(folder, 0o700)
    with step("editing"):
        made = [it if is_whole(it) else it._replace(data=in_editor(it, number, command, folder, way)) for number, it in enumerate(choices)]
    left = [it for it in made if not way.is_now(it)]
    if not left:
        raise Stop("the editor left nothing of what was marked")
    return left


def in_editor(choice, number, command, folder, way):
    """Returns the contents of a choice as the editor leaves them, byte for byte."""
    name = os.fsencode(os.path.basename(choice.change.path))[-NAME_BYTES:]
    # with a number before it, no editor takes it for a file of settings
    path = os.path.join(folder, "%d-%s" % (number, os.fsdecode(name)))
    with open(os.open(path, os.O_WRONLY | os.O_CREAT | os.O_EXCL, 0o600), "wb") as file:
        file.write(choice.data)
    words = ["sh", "-c", command + ' "$@"', command, path]
    status, _, _ = run_in_terminal(words, way.repository.environment, **way.repository.inside(way.repository.top))
    if status:
        raise Stop("the editor of %s ended with status %d" % (shown(choice.change.path), status))
    with open(path, "rb") as file:
        data = file.read()
    if choice.data and not data:
        raise Stop("%s was emptied in the editor" % shown(choice.change.path))
    return data
