"""Random choices among the changes of each case of changed.py, and of commits of this repository.

gabrosty-diff-editor has a commit's parent and the commit itself as LEFT and RIGHT. git-select has the parent's files in the last
commit and the commit's own in the working tree. What each one writes is what a splitter makes of the marks, in here."""
import io
import json
import os
import random
import subprocess

import changed
import trying
from choosing.words import shown
from options import content_of, edit_folders
from places import Repository

COMMITS, SEEDS = 24, 2
MARKER = os.path.join(os.path.dirname(os.path.abspath(__file__)), "mark-at-random")
KINDS = {"100644": "file", "100755": "run", "120000": "link"}


def git(*words):
    return subprocess.run(["git", "-C", str(trying.ROOT), *words], capture_output=True, check=True).stdout


def history():
    """Returns commits of this repository, each with the files that it changes as they are in its parent and in itself."""
    names = git("rev-list", "--no-merges", "--min-parents=1", "HEAD").decode().split()
    for name in random.Random(1).sample(names, min(COMMITS, len(names))):
        sides = {}, {}
        parts = os.fsdecode(git("diff-tree", "-r", "-z", "--no-renames", name + "^", name)).split("\0")[:-1]
        for head, path in zip(parts[0::2], parts[1::2]):
            modes, objects = head[1:].split()[:2], head.split()[2:4]
            for side, mode, blob in zip(sides, modes, objects):
                if mode in KINDS:
                    side[path] = what_of(KINDS[mode], git("cat-file", "blob", blob))
        yield name[:10], *sides


def what_of(kind, data):
    """Returns what a file is in a table of changed.py."""
    return data if kind == "file" else (kind, os.fsdecode(data) if kind == "link" else data)


def lines_in(data):
    """Returns the lines of a file with their line ends. Only the last one may have none."""
    return list(io.BytesIO(data))


def joined(lines):
    """Returns the text of lines. One without a line end gets it where another follows."""
    return b"".join(line if line.endswith(b"\n") else line + b"\n" for line in lines[:-1]) + b"".join(lines[-1:])


def path_of(file):
    """Returns the path of a file of a state, as it is shown, without what is said of it."""
    return file["path"].split("\N{NO-BREAK SPACE}")[0]


def split(file, old, new):
    """Returns what a file is with its marked changes alone, by walking both of its sides beside the marks. `old` and `new`
    are what the file is in LEFT and RIGHT, or None."""
    (kind, data), (new_kind, new_data) = kind_and_data(old), kind_and_data(new)
    sides, lines, place = [lines_in(data), lines_in(new_data)], [], [0, 0]
    has_lines = any("lines" in part for _, part in parts_of(file))
    link = next((data for kind, data in map(kind_and_data, (old, new)) if kind == "link"), None)
    for name, part in parts_of(file):
        if name == "FileMode" and part["is_checked"]:
            kind = new_kind
            data = new_data if len(file["sections"]) == 1 else data
        elif name == "Binary" and part["is_checked"]:
            kind = new_kind if len(file["sections"]) == 1 else kind
            data = new_data
        for line in part.get("lines", ()):
            step(line, sides, place, lines)
    if has_lines:
        data = joined(lines)
        # where lines stay, the file stays too, and else what it had taken the place of
        kinds = [it for it in (kind_and_data(old)[0], new_kind) if it not in (None, "link")]
        kind = kinds[0] if data and kind in (None, "link") else kind
        data = link if kind == "link" else data
    return None if kind is None else what_of(kind, data)


def parts_of(file):
    """Returns the sections of a file of a state, each with its name."""
    return [item for section in file["sections"] for item in section.items()]


def step(line, sides, place, lines):
    """Goes past a line of a state on the sides that have it, and takes it if the choice does."""
    is_context = isinstance(line, str)
    is_added = not is_context and line["change_type"] == "Added"
    taken = sides[is_added][place[is_added]]
    for side in (0, 1) if is_context else (is_added,):
        place[side] += 1
    if is_context or is_added == line["is_checked"]:
        lines.append(taken)


def kind_and_data(what):
    if what is None:
        return None, b""
    return (what[0], content_of(what)) if isinstance(what, tuple) else ("file", what)


def with_other_marks(part):
    """Returns a part of a state with all that was marked unmarked, and the other way round."""
    if isinstance(part, dict):
        return {name: not it if name == "is_checked" else with_other_marks(it) for name, it in part.items()}
    return [with_other_marks(it) for it in part] if isinstance(part, list) else part


def marked_at_random(place, command, seed, folder=None, refused=()):
    """Runs a command with marks that `seed` chooses. Returns the files that it showed, with their marks, by path. If it refuses
    them, it says one of `refused`."""
    marked, front = os.path.join(place.top, "marked"), os.path.join(place.prefix, "bin", "scm-select")
    status, said = place.type(command, ["c", "c"], folder, SELECT=MARKER, FRONT=front, MARKED=marked, SEED=str(seed))
    if status and not any(words in said for words in refused):
        raise RuntimeError(said)
    if not os.path.exists(marked):
        return {}
    with open(marked) as file:
        files = {path_of(file): file for file in json.load(file)["files"]}
    os.unlink(marked)
    return files


def chosen(files, old, new):
    """Returns the table `old` with the marked changes of `files`, which lead to `new`. In `files` names are as they are shown."""
    made, paths = {}, {shown(path): path for path in {**old, **new}}
    for name, file in files.items():
        path, before = paths[name], paths.get(file["old_path"])
        if before is None:
            made[path] = split(file, old.get(path), new.get(path))
        else:
            # its path is an item, that of a mode
            is_new = any(part["is_checked"] for word, part in parts_of(file) if word == "FileMode")
            made[path if is_new else before] = split(file, old[before], new[path])
            made[before if is_new else path] = None
    return {path: what for path, what in {**old, **made}.items() if what is not None}


def some_in_folders(place, seed, old, new):
    """A random choice of what LEFT and RIGHT differ in is written."""
    left, right = place.folder("left", old), place.folder("right", new)
    files = marked_at_random(place, ["gabrosty-diff-editor", left, right], seed)
    return changed.read(right) == chosen(files, old, new) and changed.read(left) == old and place.has_left_nothing()


def some_in_a_repository(place, seed, old, new):
    """A random choice of what the working tree has changed is staged, then of the rest one is taken back. Then all is staged,
    and one is taken out of the index."""
    repository = Repository(place, old, new)

    def select(*words):
        return marked_at_random(place, ["git", "select", *words], seed, repository.folder)

    marked = select()
    staged = repository.index_files()
    is_staged = staged == chosen(marked, old, new) and repository.files() == new
    marked = with_other_marks(select("--restore"))
    untracked = {path: what for path, what in new.items() if path not in staged}
    there = {**untracked, **chosen(marked, staged, new)}
    is_back = repository.files() == there and repository.index_files() == staged
    repository.git("add", "--all")
    marked = with_other_marks(select("--unstage"))
    is_out = repository.index_files() == chosen(marked, old, there) and repository.files() == there
    return is_staged and is_back and is_out and repository.is_sound()


def some_in_two_commits(place, seed, old, new):
    """A random choice of what the last commit changes is in the first of two commits, and the second has all. If all is chosen,
    that is refused, and if nothing is, nothing is done."""
    repository = Repository(place, old, new)
    repository.commit()
    words, refused = ["git", "select", "--split"], ["all of it is marked"]
    marked = marked_at_random(place, words, seed, repository.folder, refused)
    place.forget_marks()
    wanted, count = chosen(marked, old, new), int(repository.git("rev-list", "--count", "HEAD"))
    is_split = count == 3 and repository.files_of("HEAD^") == wanted
    is_right = is_split if wanted not in (old, new) else count == 2
    is_left = repository.files_of("HEAD") == repository.index_files() == repository.files() == new
    return is_right and is_left and repository.is_sound()


def some_in_a_stash(place, seed, old, new):
    """A random choice of what the working tree has changed is taken back, and a stash has it."""
    repository = Repository(place, old, new)
    marked = marked_at_random(place, ["git", "select", "--stash"], seed, repository.folder)
    untracked = {path: what for path, what in new.items() if path not in old}
    is_taken = repository.files() == {**untracked, **chosen(with_other_marks(marked), old, new)}
    repository.git("checkout", "--quiet", ".", check=bool(old))
    if repository.git("stash", "list"):
        repository.git("stash", "pop", "--quiet")
    return is_taken and repository.files() == {**untracked, **chosen(marked, old, new)} and repository.is_sound()


RANDOM = some_in_folders, some_in_a_repository, some_in_two_commits, some_in_a_stash


def tries():
    """Yields what is tried: its words, and what is called with a place and with what follows."""
    for name, (old, new) in changed.CASES.items():
        for seed in range(0 if name in changed.NEED_ONE_ANOTHER else SEEDS):
            for attempt in RANDOM:
                yield "%s, %s, by %d" % (attempt.__name__.replace("_", " "), name, seed), attempt, seed, old, new
    for name, old, new in history():
        yield "the folders of the commit %s" % name, edit_folders, old, new
        for attempt in RANDOM:
            yield "%s, the commit %s" % (attempt.__name__.replace("_", " "), name), attempt, int(name, 16), old, new
