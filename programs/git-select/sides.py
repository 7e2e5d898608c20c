"""Which files differ, each with its two sides: between the index and the working tree, or the last commit and the index."""
from choosing.change import ABSENT, SUBMODULE, Change, Read, Renamed, Side, Unread
from choosing.paths import fault_in
from choosing.words import shown
from look import Look, beyond
from repository import NO_FILE

GONE = Side(ABSENT, None)


def reason_against(path, modes, letter):
    """Returns why a file is left out by its path and by what the index or a commit has of it, or None if it is not."""
    if letter == "U":
        return "it is in conflict"
    return "it is a submodule" if SUBMODULE in modes else fault_in(path)


def candidates(repository, paths, start, has_untracked):
    """Returns what may differ from the index: by path, its side there and its mode now, or None if git does not know the file. Returns
    too, by path, why others are left out, and what git said of folders that it cannot read."""
    found, left_out, said = {}, {}, []
    for path, side, mode, letter in repository.tracked(paths, start):
        found[path] = side, mode
        reason = reason_against(path, (side.mode, mode), letter)
        if side.mode == ABSENT and letter != "U" and not has_untracked:
            reason = "the index has no contents of it"
        # git names a file in conflict twice
        if reason:
            left_out[path] = reason
    if has_untracked:
        untracked, said = repository.untracked(paths, start)
        for path in untracked:
            found[path] = Side(ABSENT, None), None
            reason = "it is a repository of its own" if path.endswith("/") else fault_in(path)
            if reason:
                left_out[path] = reason
    left_out.update((path, NO_FILE) for path in repository.no_files(paths, start))
    return found, left_out, said


def changed_in_tree(way, scratch, only=None, is_new_shown=True):
    """Returns the sides of each file that differs between the index and the working tree, by path, and notes on what is left out. With
    `only`, a set of paths, others are passed over."""
    has_untracked = is_new_shown and way.shows_untracked()
    found, left_out, notes = candidates(way.repository, way.options.paths, way.start, has_untracked)
    # git names most of them in order, so they are soon sorted
    paths = sorted([path for path in found if path not in left_out and (only is None or path in only)])
    old = {path: found[path][0] for path in paths}
    # what is not read is found out once
    sizes = scratch.sizes([side.name for side in old.values() if side.name], way.most_read()) if way.unread is None else {}
    old_sizes = {path: sizes[side.name] for path, side in old.items() if side.name in sizes}
    modes = {path: found[path][1] for path in paths if found[path][1] != ABSENT}
    look = Look(scratch, modes, old_sizes, way.unread, way.most_read(), way.seen)
    new = look.sides()
    left_out.update(look.left_out)
    way.unread, way.seen = look.unread, look.seen
    scratch.known.update(look.contents)
    scratch.leave_unread({old[path].name: old_sizes[path] for path in look.unread if path in old_sizes})
    pairs = [(path, old[path], new.get(path, GONE)) for path in paths if path not in left_out]
    return {path: (then, now) for path, then, now in pairs if differ(then, now, scratch.known)}, [*notes, *notes_on(left_out)]


def differ(old, new, known):
    """Whether two sides of a file are not the same. If the bytes of both are known, they are compared, and need no names."""
    if old.mode != new.mode:
        return True
    data = known.get(old.name) if isinstance(new, Read) else None
    return old != new if data is None or isinstance(data, Unread) else data != new.data


def changed_in_index(way, scratch):
    """Returns the same of each file that differs between the last commit and the index."""
    return without_left_out(way, scratch, way.repository.staged(way.options.paths, way.start))


def changed_between(way, scratch, old, new):
    """Returns the same of each file that differs between two commits."""
    return without_left_out(way, scratch, way.repository.between(old, new, way.options.paths, way.start))


def without_left_out(way, scratch, differing):
    """Returns the sides of files that differ, by path, and notes on what is left out. `differing` has what git says of them."""
    sides, left_out = {}, {}
    for path, old, new, letter in differing:
        reason = reason_against(path, (old.mode, new.mode), letter)
        if reason:
            left_out[path] = reason
        sides[path] = old, new
    sides = {path: pair for path, pair in sides.items() if path not in left_out}
    if way.unread is None:
        leave_largest(way, scratch, sides)
    return sides, notes_on(left_out)


def leave_largest(way, scratch, sides):
    """Has the largest files not be read, where all together are too much."""
    sizes = scratch.sizes((side.name for pair in sides.values() for side in pair if side.name), way.most_read())
    way.unread = beyond({path: sum(sizes.get(side.name, 0) for side in pair) for path, pair in sides.items()}, way.most_read())
    names = [side.name for path in way.unread for side in sides[path] if side.name in sizes]
    scratch.leave_unread({name: sizes[name] for name in names})


def notes_on(left_out):
    return ["%s is left out: %s" % (shown(path), left_out[path]) for path in sorted(left_out)]


def read_changes(scratch, sides):
    """Returns what is changed, by the sides of each file. A file that has another path by now is one change."""
    contents = scratch.contents([side.name for pair in sides.values() for side in pair if isinstance(side, Side) and side.name])
    changes = {path: Change(path, pair, contents) for path, pair in sides.items()}
    for new, old in scratch.renames(sides).items():
        renamed = Renamed(changes[old], changes[new], contents)
        if renamed.can_be_shown():
            changes[new] = renamed
            del changes[old]
    return list(changes.values())
