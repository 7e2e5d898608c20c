"""git-select where the user's settings, hooks or ways to keep a repository change what git does, for tools/dev/try-tools."""
import os
import stat

import changed
from options import content_of
from places import Repository

WORDS = [], ["--unstage"], ["--restore"], ["--commit", "-m", "x"]
UPPER = {"filter.up.clean": "tr A-Z a-z", "filter.up.smudge": "tr a-z A-Z"}


def configure(repository, settings):
    for name, value in settings.items():
        repository.git("config", name, value)


def write_hook(repository, name, lines):
    path = os.path.join(repository.folder, ".git", "hooks", name)
    os.makedirs(os.path.dirname(path), exist_ok=True)
    with open(path, "w") as file:
        file.write("#!/bin/sh\n" + lines)
    os.chmod(path, 0o755)


def each_way(repository, path, top=None, **more):
    """Returns whether each way to use a change of `path` does that alone. In the last commit the file has the lines 1 and 2."""
    return four_ways(repository, path, top, **more) and other_ways(repository, path, top or repository.folder, **more)


def four_ways(repository, path, top=None, **more):
    """Stages a change of `path`, takes it out of the index, takes it back in the working tree, makes it again, and commits it.
    Returns whether each step did that alone. In the last commit the file has the lines 1 and 2, and the second one changes."""
    old, new = b"1\n2\n", b"1\ntwo\n"
    ends = []
    for words, staged, there in zip(WORDS, (new, old, old, new), (new, new, old, new)):
        changed.write_file(os.path.join(top or repository.folder, path), new)
        status, _ = repository.select(*words, keys=["a", "c"], **more)
        found = repository.git("show", ":" + path).encode(), content_of(repository.files()[path])
        ends.append((status, *found) == (0, staged, there))
    return all(ends) and repository.git("show", "HEAD:" + path).encode() == new and repository.is_sound()


def other_ways(repository, path, top, **more):
    """Stashes another change, and has it back, adds it to the last commit, and makes two of that one. Returns whether each step did
    that alone. In the last commit but one the file has the lines 1 and 2."""
    old, new = repository.git("show", "HEAD:" + path).encode(), b"one\nthree\n"
    changed.write_file(os.path.join(top, path), new)
    is_stashed = repository.select("--stash", keys=["a", "c"], **more)[0] == 0 and content_of(repository.files()[path]) == old
    where = {"GIT_DIR": os.path.join(repository.folder, ".git"), "GIT_WORK_TREE": top}
    repository.git("stash", "pop", "--quiet", **where)
    is_stashed = is_stashed and content_of(repository.files()[path]) == new
    is_added = repository.select("--amend", "-m", "y", keys=["a", "c"], **more)[0] == 0
    is_added = is_added and repository.git("show", "HEAD:" + path, ":" + path, "HEAD^:" + path).encode() == new + new + b"1\n2\n"
    # the line 1 goes first
    is_split = repository.select("--split", keys=["shift-F", "j", "j", "space", "c"], **more)[0] == 0
    is_split = is_split and repository.git("show", "HEAD:" + path, "HEAD^:" + path, "HEAD^^:" + path).encode() == new + b"2\n1\n2\n"
    is_done = is_stashed and is_added and is_split and content_of(repository.files()[path]) == new
    return is_done and repository.is_sound()


def in_a_folder_with_a_strange_name(place):
    """The repository lies in a folder whose name has quotes, a line end and bytes that are no UTF-8."""
    repository = Repository(place, {"a": b"1\n2\n"}, {}, 'a "b" \\\n\udcff')
    return each_way(repository, "a")


def by_variables(place):
    """GIT_DIR and GIT_WORK_TREE name the repository, and the user is elsewhere."""
    repository = Repository(place, {"a": b"1\n2\n"}, {})
    where = {"GIT_DIR": os.path.join(repository.folder, ".git"), "GIT_WORK_TREE": repository.folder}
    return each_way(repository, "a", folder=place.folder("outside"), **where)


def with_the_files_elsewhere(place):
    """core.worktree names a folder that does not lie beside the repository's own."""
    files = place.folder("elsewhere", {"a": b"1\n2\n"})
    repository = Repository(place, {"a": b"1\n2\n"}, {})
    repository.git("config", "core.worktree", files)
    repository.files = lambda: changed.read(files)
    return each_way(repository, "a", files)


def with_long_names_of_objects(place):
    """The repository names objects by SHA-256. Skipped where git cannot."""
    if place.call("git", "init", "--quiet", "--object-format=sha256", place.folder("repository"))[0]:
        return None
    return each_way(Repository(place, {"a": b"1\n2\n"}, {}), "a")


def with_an_index_in_two_parts(place):
    repository = Repository(place, {"a": b"1\n2\n", "b": b"1\n"}, {"b": b"1\n"})
    repository.git("config", "core.splitIndex", "true")
    repository.git("update-index", "--split-index")
    return each_way(repository, "a")


def with_a_sparse_index(place):
    """Folders that are not checked out stay in the index as they are. Skipped where git keeps no such index."""
    repository = Repository(place, {"a": b"1\n2\n", "in/a": b"1\n2\n", "out/a": b"1\n", "out/b/c": b"1\n"}, {})
    repository.git("checkout", "--quiet", ".")
    if place.call("git", "sparse-checkout", "set", "--cone", "--sparse-index", "in", folder=repository.folder)[0]:
        return None
    is_done = each_way(repository, "in/a")
    left = repository.git("ls-tree", "-r", "--name-only", "HEAD").split(), repository.git("status", "--porcelain")
    return is_done and left == (["a", "in/a", "out/a", "out/b/c"], "") and not os.path.exists(repository.folder + "/out")


def what_a_sparse_tree_has_not(place):
    """What is taken out of the index where the working tree is not to have it does not count as deleted there, as with git reset. Before
    2.41 git does not say whether it is to have a file that the index lacks."""
    old, ends = {"a/x": b"1\n", "b/x": b"1\n", "b/y": b"1\n"}, []
    repository = Repository(place, old, old)
    says = repository.git("sparse-checkout", "check-rules", given=b"a/x\n", check=False)
    for new in ({"a/x": b"2\n", "b/x": b"2\n", "b/y": b"2\n"}, {"a/x": b"2\n", "b/x": b"2\n"})[: 2 if says else 1]:
        changed.write(repository.folder, new)
        repository.commit()
        last = repository.git("rev-parse", "HEAD").strip()
        repository.git("reset", "--quiet", "--hard", "HEAD~")
        repository.git("sparse-checkout", "set", "--cone", "a")
        for unstage in lambda: repository.git("reset", "--quiet"), lambda: repository.select("--unstage", keys=["a", "c"]):
            repository.git("cherry-pick", "--no-commit", last)
            is_staged = len(repository.git("diff", "--cached", "--name-only").splitlines()) == 3
            unstage()
            ends.append(is_staged and repository.git("ls-files", "-t") == "H a/x\nS b/x\nS b/y\n")
            ends.append(repository.git("status", "--porcelain") == " M a/x\n")
            repository.git("reset", "--quiet", "--hard")
        repository.git("sparse-checkout", "disable")
    return all(ends) and repository.is_sound()


def what_the_working_tree_hides(place):
    """A file that git is told to pass over is neither shown nor taken along."""
    for word, letter in (("--skip-worktree", "S"), ("--assume-unchanged", "h")):
        repository = Repository(place, {"a": b"1\n2\n", "b": b"1\n"}, {"a": b"1\n2\n", "b": b"2\n"})
        repository.git("update-index", word, "b")
        is_done = each_way(repository, "a") and repository.git("ls-files", "-v", "b") == letter + " b\n"
        if not is_done or repository.git("show", ":b") != "1\n" or repository.files()["b"] != b"2\n":
            return False
        repository.git("update-index", "--no-" + word[2:], "b")
    return True


def modes_that_git_does_not_look_at(place):
    """With core.fileMode off, whether a file can be run is neither shown nor changed."""
    repository = Repository(place, {"a": b"1\n2\n", "b": b"1\n"}, {"a": b"1\n2\n", "b": ("run", b"1\n")})
    repository.git("config", "core.fileMode", "false")
    path = os.path.join(repository.folder, "a")
    os.chmod(path, 0o750)
    # git itself, which has a stash back, gives a file new permissions
    is_done = four_ways(repository, "a")
    return is_done and stat.S_IMODE(os.stat(path).st_mode) == 0o750 and repository.files()["b"] == ("run", b"1\n")


def links_that_are_files(place):
    """With core.symlinks off, a link of the index is a file that has its target, and stays one."""
    repository = Repository(place, {"a": ("link", "b")}, {"a": b"c"})
    repository.git("config", "core.symlinks", "false")
    is_staged = repository.select(keys=["a", "c"])[0] == 0 and repository.git("ls-files", "--stage").startswith("120000 ")
    is_staged = is_staged and repository.git("show", ":a") == "c" and repository.files() == {"a": b"c"}
    changed.write(repository.folder, {"a": b"d"})
    is_back = repository.select("--restore", keys=["a", "c"])[0] == 0 and repository.files() == {"a": b"c"}
    return is_staged and is_back and repository.is_sound()


def a_filter_in_both_ways(place):
    """What is staged went through the filter that cleans, and what is restored through the one that smudges."""
    repository = Repository(place, {}, {".gitattributes": b"*.up filter=up\n", "a.up": b"ONE\nTWO\nTHREE\n"})
    configure(repository, UPPER)
    is_staged = repository.select(keys=["a", "c"])[0] == 0 and repository.git("show", ":a.up") == "one\ntwo\nthree\n"
    changed.write_file(os.path.join(repository.folder, "a.up"), b"ONE\nCHANGED\nTHREE\nMORE\n")
    # the first section, with both its lines
    is_part = repository.select("--restore", keys=["shift-F", "j", "space", "c"])[0] == 0
    is_part = is_part and repository.files()["a.up"] == b"ONE\nTWO\nTHREE\nMORE\n"
    is_back = repository.select("--restore", keys=["a", "c"])[0] == 0
    return is_staged and is_part and is_back and repository.files()["a.up"] == b"ONE\nTWO\nTHREE\n" and repository.is_sound()


def another_encoding(place):
    """A file of the working tree is in UTF-16, and git stores it in UTF-8."""
    attributes = {".gitattributes": b"*.txt working-tree-encoding=UTF-16LE\n"}
    old, new = ("1\n2\n3\n".encode("utf-16-le"), "1\nzwö\n3\n4\n".encode("utf-16-le"))
    repository = Repository(place, {**attributes, "a.txt": old}, {**attributes, "a.txt": new})
    # the first section, with both its lines
    keys = ["shift-F", "j", "space", "c"]
    is_staged = repository.select(keys=keys)[0] == 0 and repository.git("show", ":a.txt") == "1\nzwö\n3\n"
    is_back = repository.select("--restore", keys=["a", "c"])[0] == 0
    return is_staged and is_back and repository.files()["a.txt"].decode("utf-16-le") == "1\nzwö\n3\n" and repository.is_sound()


def a_renamed_file_that_is_partly_staged(place):
    """The new name is staged with some lines, and more follow: staged, taken out, taken back and committed line by line."""
    repository = Repository(place, {"a": b"1\n2\n3\n"}, {"a": b"1\n2\n3\n"})
    repository.git("mv", "a", "b")
    changed.write(repository.folder, {"b": b"1\ntwo\n3\n"})
    repository.git("add", "b")
    new = {"b": b"one\ntwo\nthree\n"}
    changed.write(repository.folder, new)
    keys = ["shift-F", "j", "space", "c"]
    is_staged = repository.select(keys=keys)[0] == 0 and repository.index_files() == {"b": b"one\ntwo\n3\n"}
    is_back = repository.select("--restore", keys=keys)[0] == 0 and repository.files() == {"b": b"one\ntwo\n3\n"}
    changed.write(repository.folder, new)
    # of the new file b, under the old one with its mode and three lines: a line
    unstage = ["shift-F", *["j"] * 9, "space", "c"]
    is_out = repository.select("--unstage", keys=unstage)[0] == 0 and repository.index_files() == {"b": b"two\n3\n"}
    is_committed = repository.select("--commit", "-m", "x", keys=["a", "c"])[0] == 0
    is_committed = is_committed and repository.git("show", "HEAD:b").encode() == new["b"]
    return is_staged and is_back and is_out and is_committed and repository.files() == new and repository.is_sound()


def a_signed_commit(place):
    """git signs the commit, if the user has set that."""
    repository = Repository(place, {"a": b"1\n"}, {"a": b"2\n"})
    program = os.path.join(place.folder("outside"), "sign")
    with open(program, "w") as file:
        file.write("#!/bin/sh\ncat > /dev/null\necho '[GNUPG:] SIG_CREATED ' >&2\necho signature\n")
    os.chmod(program, 0o755)
    configure(repository, {"gpg.program": program, "commit.gpgSign": "true"})
    status, _ = repository.select("--commit", "-m", "x", keys=["a", "c"])
    return status == 0 and "gpgsig signature\n" in repository.git("cat-file", "commit", "HEAD") and repository.is_sound()


def hooks_around_a_commit(place):
    """A hook before the commit may stage more and look into another repository, one changes the message, and one behind it may
    fail or end git: what is committed is also in the index."""
    ends = []
    for last in ("exit 1\n", "kill -TERM $PPID\nsleep 1\n"):
        other = Repository(place, {"x": b"1\n"}, {"x": b"1\n"}, "other")
        repository = Repository(place, {"a": b"1\n", "b": b"1\n"}, {"a": b"2\n", "b": b"2\n"})
        index = os.path.join(repository.folder, ".git", "index")
        os.chmod(index, 0o660)
        other_has_x = "test -e \"$(git -C '%s' rev-parse --show-toplevel)/x\"" % other.folder
        write_hook(repository, "pre-commit", other_has_x + " && git add b\n")
        write_hook(repository, "commit-msg", "echo more >> \"$1\"\n")
        write_hook(repository, "post-commit", last)
        # a alone
        status, _ = repository.select("--commit", "-m", "x", keys=["space", "c"])
        is_kept = stat.S_IMODE(os.stat(index).st_mode) == 0o660
        is_all = repository.git("show", "HEAD:a", "HEAD:b") == "2\n2\n" and not repository.git("status", "--porcelain")
        is_all = is_all and repository.git("log", "-1", "--format=%B") == "x\nmore\n\n"
        ends.append(status == 0 and is_kept and is_all and repository.is_sound())
    return all(ends)


def no_hook_before_the_choice(place):
    """No hook of the repository runs for what is written only to look at it: a user who gives up has run none."""
    log = os.path.join(place.top, "log")
    repository, ends = Repository(place, {"a": b"1\n", "c": b"1\n"}, {"a": b"2\r\n", "b": b"1\n"}), []
    write_hook(repository, "post-index-change", "echo >> '%s'\n" % log)
    for word, is_run in ("q", False), ("c", True):
        # what is marked is asked for once more
        ends.append(repository.select(keys=["a", word, "enter"])[0] == (not is_run) and os.path.exists(log) == is_run)
    return all(ends) and repository.is_sound()


def a_message_beside_a_template(place):
    """A message that is given as an option is no template: its lines that begin with # stay."""
    repository = Repository(place, {"a": b"1\n"}, {"a": b"2\n"})
    template = os.path.join(place.folder("outside"), "template")
    changed.write_file(template, b"Subject\n# a comment\n")
    repository.git("config", "commit.template", template)
    status, _ = repository.select("--commit", "-m", "Fix it\n\n#1\n", keys=["a", "c"])
    return status == 0 and repository.git("log", "-1", "--format=%B").strip() == "Fix it\n\n#1" and repository.is_sound()


def with_the_layer(place):
    """What fits on the screen is open, a search finds a line, a mark is undone and set again, and a key of the user's own accepts."""
    repository = Repository(place, {"a": b"1\n2\n", "b": b"x\n"}, {"a": b"one\n2\n", "b": b"y\n"})
    keys = os.path.join(place.folder("own"), "gabrosty", "keys")
    os.makedirs(os.path.dirname(keys))
    changed.write_file(keys, b"# my keys\nw c\n")
    more = {"SELECT_LAYER": "on", "XDG_CONFIG_HOME": os.path.dirname(os.path.dirname(keys))}
    # from the file to its section, which is open, and to the line that comes
    words = ["j", "j", "j", "space", "u", "space", "/", "x", "enter", "space", "w"]
    status, _ = repository.select(keys=words, **more)
    found = [repository.git("show", ":" + path).encode() for path in ("a", "b")]
    changed.write_file(keys, b"w nothing-known\n")
    refused, said = repository.select(keys=[], **more)
    return (status, found) == (0, [b"1\none\n2\n", b""]) and refused and "line 1" in said and repository.is_sound()


ALL = (
    in_a_folder_with_a_strange_name, by_variables, with_the_files_elsewhere, with_long_names_of_objects,
    with_an_index_in_two_parts, with_a_sparse_index, what_a_sparse_tree_has_not, what_the_working_tree_hides, modes_that_git_does_not_look_at,
    links_that_are_files, a_filter_in_both_ways, another_encoding, a_renamed_file_that_is_partly_staged, a_signed_commit,
    hooks_around_a_commit, no_hook_before_the_choice, a_message_beside_a_template, with_the_layer,
)
