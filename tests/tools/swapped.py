"""git-select where someone puts another repository in the place of the user's, for tools/dev/try-tools."""
import contextlib
import os
import shutil

import changed
from faults import select
from outputs import select_patched
from places import Repository
from settings import configure, write_hook
from strangers import EDITOR, edit_patched, editor

WORDS = [], ["--unstage"], ["--restore"], ["--stash"], ["--commit", "-m", "x"], ["--amend"], ["--split"]


def hostile(place, ran, name="hostile"):
    """Makes a repository that writes the file `ran` where git runs what is set in it."""
    repository = Repository(place, {"a": b"1\n", ".gitattributes": b"a filter=f\n"}, {"a": b"2\n", ".gitattributes": b"a filter=f\n"})
    runs = "touch '%s'; cat" % ran
    for hook in "pre-commit", "post-commit", "post-index-change", "reference-transaction":
        write_hook(repository, hook, runs + "\n")
    configure(repository, {"core.fsmonitor": runs, "filter.f.clean": runs, "filter.f.smudge": runs, "core.editor": runs})
    folder = os.path.join(place.top, name)
    os.rename(repository.folder, folder)
    if os.path.exists(ran):
        os.unlink(ran)
    return folder


def changed_by(words, place, swap, ran):
    """Has `swap` put another repository in the place of the user's while the screen is open. Returns whether nothing of it was run,
    and all is as it was."""
    other = hostile(place, ran)
    repository = Repository(place, {"a": b"1\n", "b": b"1\n"}, {"a": b"2\n", "b": b"2\n"})
    if words in (["--unstage"], ["--split"]):
        repository.git("add", "--all")
    if words == ["--split"]:
        repository.git("commit", "--quiet", "--message=second")
    before = repository.index(), repository.files(), repository.git("for-each-ref")
    moved = os.path.join(place.top, "moved")
    status, said = repository.select(*words, keys=["space", "c"], before_last=lambda: swap(repository.folder, other, moved))
    is_stopped = status == 1 and " is another folder by now: nothing was " in said
    is_free = not any(name.endswith(".lock") for top in (repository.folder, moved) for name in os.listdir(top))
    swap(repository.folder, moved, other)
    place.forget_marks()
    after = repository.index(), repository.files(), repository.git("for-each-ref")
    return is_stopped and is_free and before == after and not os.path.exists(ran) and repository.is_sound()


def a_link_in_the_tree_of_a_folder(place):
    """git difftool hands in a folder with links to files of the working tree. A folder or a file of that which is a link by then, or becomes one
    while the user chooses, is named: what it leads to is not read, and git keeps nothing of it."""
    private, ends = b"private\n", []
    repository = Repository(place, {"d/x": b"1\n"}, {"d/x": b"2\n"})
    outside, left = place.folder("outside", {"x": private}), place.folder("left", {"d/x": b"1\n"})
    swaps = "mv d moved && ln -s '%s' d" % outside, "rm d/x && ln -s '%s/x' d/x" % outside
    back = "rm -rf d && mv moved d", "rm d/x && printf '2\\n' > d/x"
    for swap, undo in zip(swaps, back):
        for is_begun in False, True:
            right = place.folder("right/d")
            os.symlink(repository.folder + "/d/x", right + "/x")
            if not is_begun:
                place.call("sh", "-c", swap, folder=repository.folder)
            meanwhile = "cd '%s' && %s" % (repository.folder, swap if is_begun else "true")
            words = {"GIT_DIFFTOOL_DIRDIFF": "true", "GIT_DIR": repository.folder + "/.git", "MEANWHILE": meanwhile, "ADDS": "added\n"}
            status, said = editor(place, left, place.top + "/right", **words)
            ends.append(status == 1 and "changed meanwhile" in said and os.readlink(right + "/x") == repository.folder + "/d/x")
            ends.append(not has_object(repository, private) and changed.read(outside) == {"x": private})
            place.call("sh", "-c", undo, folder=repository.folder)
            shutil.rmtree(place.top + "/right")
            place.forget_marks()
    return all(ends) and repository.files() == {"d/x": b"2\n"}


def has_object(repository, data):
    """Whether git keeps these bytes."""
    name = repository.git("hash-object", "--stdin", given=data).strip()
    return bool(repository.git("cat-file", "-t", name, check=False))


# writes a link, and another one in a folder of that name, as they come where a disk folds names: A and a/b
FOLDED = """import os, sys
sys.path[:0] = [os.path.join(sys.argv[1], "lib/gabrosty", name) for name in ("git-select", "")]
from stash import write_out
entries = [("a/x", ("100644", b"1")), ("link", ("120000", os.fsencode(sys.argv[3]))), ("link/made", ("120000", b"x"))]
try:
    write_out(sys.argv[2], entries)
except OSError as error:
    print(error.strerror)
"""


def links_where_a_disk_folds_names(place):
    """Where the folder for temporary files folds names, nothing is written through a link of a stash while that is tried on a copy."""
    outside, top = place.folder("outside"), os.path.join(place.top, "top")
    end = place.call("python3", "-B", "-c", FOLDED, place.prefix, top, outside)
    return end == (0, "Not a directory\n") and os.listdir(outside) == [] and sorted(os.listdir(top)) == ["a", "link"]


def swap_all(folder, other, moved):
    os.rename(folder, moved)
    os.rename(other, folder)


def swap_git(folder, other, moved):
    """Swaps what git keeps alone, and leaves the files."""
    os.makedirs(moved, exist_ok=True)
    os.rename(os.path.join(folder, ".git"), os.path.join(moved, ".git"))
    os.rename(os.path.join(other, ".git"), os.path.join(folder, ".git"))


def another_repository_meanwhile(place):
    """The folder of the repository, or its .git alone, is another one when the user accepts: that is said, nothing is written, and
    nothing that is set in the other one runs."""
    ran = os.path.join(place.folder("ran"), "ran")
    ends = []
    for number, (words, swap) in enumerate((words, swap) for words in WORDS for swap in (swap_all, swap_git)):
        ends.append(changed_by(words, place, swap, ran))
        for name in "repository", "hostile", "moved":
            if os.path.exists(os.path.join(place.top, name)):
                os.rename(os.path.join(place.top, name), os.path.join(place.top, "%s-%d" % (name, number)))
    return all(ends)


# what git-select calls behind its last look at the repository, where `.git` is another folder then
SWAPS = """import repository
kept = repository.Repository.check_same
def swaps(self):
    kept(self)
    os.rename(".git", "../moved")
    os.rename("../other", ".git")
repository.Repository.check_same = swaps
"""


def a_folder_behind_the_last_look(place):
    """Where the folder of the index is another one just after it was compared, that one has no lock, no index and nothing else of
    ours: the index that was opened is written, or git says what it finds."""
    ends = []
    for words in [], ["--restore"]:
        repository = Repository(place, {"a": b"1\n"}, {"a": b"2\n"})
        other, own, moved = (os.path.join(place.top, name) for name in ("other", "repository/.git", "moved"))
        os.mkdir(other)
        changed.write(other, {"index": b"mine\n", "git-select-1": b"mine\n"})
        before, old = changed.read(other), repository.index()
        select_patched(repository, SWAPS, *words)
        ends.append(changed.read(own) == before)
        os.rename(own, other)
        os.rename(moved, own)
        names = [name for name in os.listdir(own) if name.endswith(".lock") or name.startswith("git-select")]
        ends.append(not names and repository.index() in (old, repository.index_of("add", "--all")))
        for path in repository.folder, other:
            shutil.rmtree(path)
        place.forget_marks()
    return all(ends)


# another user's repository takes the place of the user's while git-select begins: when git has said where all lies, or when it
# has found the repository in the top folder, or not
EARLY = """import repository
above = os.path.dirname(os.environ["TMPDIR"])
def swaps(function):
    def swapped(*given):
        found = function(*given)
        if os.path.isdir(above + "/hostile"):
            os.rename(above + "/repository", above + "/moved")
            os.rename(above + "/hostile", above + "/repository")
        return found
    return swapped
%s = swaps(%s)
"""


def exchanged_early(place, ran, where, settings):
    """Returns what git-select says where the repository is exchanged early, or None if something of the other one ran, or something
    was written."""
    other = hostile(place, ran)
    repository = Repository(place, {"a": b"1\n"}, {"a": b"2\n"})
    configure(repository, settings)
    before, own, other_own = repository.index(), os.path.join(place.top, "moved"), os.path.join(repository.folder, ".git")
    for folder, _, names in os.walk(other):
        for path in (folder, *(os.path.join(folder, name) for name in names)):
            os.chown(path, 65534, 65534, follow_symlinks=False)
    status, said = select_patched(repository, EARLY % (where, where), "--restore")
    place.forget_marks()
    is_well = status == 1 and not os.path.exists(ran) and not any(entry.stat().st_uid == 0 for entry in os.scandir(other_own))
    shutil.rmtree(repository.folder)
    os.rename(own, repository.folder)
    is_well = is_well and repository.index() == before and repository.is_sound()
    shutil.rmtree(repository.folder)
    return said if is_well else None


def another_repository_at_the_start(place):
    """A repository of another user that takes the place of the user's while git-select begins has nothing run, also where a setting
    names another folder for the files. Skipped where its owner cannot be changed."""
    if os.geteuid():
        return "that needs another user"
    ran = os.path.join(place.folder("ran"), "ran")
    tree = place.folder("tree", {"a": b"3\n"})
    places, is_found = "repository.places", "repository.Repository.is_found"
    ends = [exchanged_early(place, ran, *given) for given in ((places, {}), (is_found, {}), (is_found, {"core.worktree": tree}))]
    are_said = [said is not None and " is another folder by now" in said for said in ends]
    repository = Repository(place, {"a": b"1\n"}, {"a": b"2\n"})
    configure(repository, {"core.worktree": tree})
    is_staged = repository.select(keys=["a", "c"])[0] == 0 and repository.git("show", ":a") == "3\n"
    return all(are_said) and is_staged and changed.read(tree) == {"a": b"3\n"} and repository.is_sound()


def what_git_leaves_at_work(place):
    """Where a setting names another folder for the files, git knows the repository by a folder that is open in git-select. So git leaves no
    process at work, which could find another folder by that later."""
    tree, told = place.folder("tree", {"a": b"3\n"}), os.path.join(place.top, "told")
    repository = Repository(place, {"a": b"1\n"}, {"a": b"2\n"})
    write_hook(repository, "post-commit", "echo \"$(git config --get gc.autoDetach) $(git config --get maintenance.autoDetach)\" > '%s'\n" % told)
    ends = []
    for is_apart in False, True:
        configure(repository, {"core.worktree": tree} if is_apart else {"gc.autoDetach": "true", "maintenance.autoDetach": "true"})
        ends.append(select(repository, "--commit", "-m", "x")[0] == 0 and changed.read_file(told) == (b"false false\n" if is_apart else b"true true\n"))
    return all(ends) and repository.is_sound()


# a folder becomes a link between the look at its files and the reading
LINKS = """import look
kept = look.Look.converted
def links(self, paths):
    if not os.path.islink("d"):
        os.rename("d", "../d")
        os.symlink("../outside", "d")
    return kept(self, paths)
look.Look.converted = links
"""


def a_folder_that_becomes_a_link(place):
    """What lies outside, where the link leads, is not read, and the file is left out by name."""
    repository = Repository(place, {"d/f": b"1\n"}, {"d/f": b"2\n"})
    place.folder("outside", {"f": b"private\n"})
    before = repository.index()
    status, said = select_patched(repository, LINKS)
    place.forget_marks()
    return "d/f is left out: " in said and repository.index() == before


def a_repository_of_another_user(place):
    """It is refused as git refuses it, also where it comes in the place of the user's own. Skipped where its owner cannot be
    changed."""
    repository = Repository(place, {"a": b"1\n"}, {"a": b"2\n"})
    other = os.path.join(place.top, "other")
    Repository(place, {"a": b"1\n"}, {"a": b"2\n"}, "other")
    if os.geteuid():
        return None
    for path in other, os.path.join(other, ".git"):
        os.chown(path, 65534, 65534)
    said = place.call("git", "select", folder=other)
    is_refused = said[0] == 1 and "dubious ownership" in said[1]
    before = repository.index()
    # the folder stays, and becomes another user's
    status, said = repository.select(keys=["a", "c"], before_last=lambda: os.chown(repository.folder, 65534, 65534))
    is_stopped = status == 1 and "dubious ownership" in said and "nothing was staged" in said
    os.chown(repository.folder, 0, 0)
    place.forget_marks()
    return is_refused and is_stopped and repository.index() == before and repository.is_sound()


# a file becomes too large between the look at it and the reading, where all are looked at before one is read
GROWS = """import look
kept = look.Look.can_read
def grows(self, path, converted):
    os.truncate("a", 1 << 40)
    return kept(self, path, converted)
look.Look.read_at_once = lambda *_: None
look.Look.can_read = grows
"""


def a_file_that_becomes_large(place):
    """A file that has a terabyte when it is read, and had a few bytes when it was looked at, is left out by name."""
    repository = Repository(place, {"a": b"1\n", "b": b"1\n"}, {"a": b"2\n", "b": b"2\n"})
    status, said = select_patched(repository, GROWS)
    changed.write(repository.folder, {"a": b"1\n", "b": b"2\n"})
    out = "git-select: a is left out: it has more than 1,000,000,000 bytes\n"
    return status == 0 and out in said and "staged: b\n" in said and repository.index() == repository.index_of("add", "b")


# the link that is named as RIGHT leads to another file for a moment, while its folder is looked for
ANOTHER = """import compared
kept = compared.target_of
def lead(path):
    os.unlink("link")
    os.symlink(path, "link")
def target_of(*given):
    lead("mine/x")
    target = kept(*given)
    lead("others/x")
    return target
compared.target_of = target_of
"""


def a_link_that_leads_elsewhere(place):
    """Where RIGHT is a link in a folder of another user, and leads elsewhere for a moment, what is shown is what is changed, or nothing."""
    mine, others = place.folder("mine", {"x": b"mine\n"}), place.folder("others", {"x": b"2\n"})
    left = os.path.join(place.folder("left", {"x": b"1\n"}), "x")
    os.symlink("others/x", os.path.join(place.top, "link"))
    status, said = edit_patched(place, ANOTHER, left, "link")
    is_said = (status, said) == (1, EDITOR + ": link changed meanwhile\n")
    return is_said and changed.read(mine) == {"x": b"mine\n"} and changed.read(others) == {"x": b"2\n"}


# LEFT and RIGHT are files when RIGHT is looked for, and folders when they are compared
BECOME_FOLDERS = """import compared
kept = compared.target_of
def target_of(*given):
    for name in "left", "right":
        os.rename(name, "folder of " + name)
        os.rename("file of " + name, name)
    target = kept(*given)
    for name in "left", "right":
        os.rename(name, "file of " + name)
        os.rename("folder of " + name, name)
    return target
compared.target_of = target_of
"""


def files_that_become_folders(place):
    """Where files are in the places of LEFT and RIGHT for a moment, the folder around RIGHT is neither compared nor changed."""
    names = {"left/a": b"1\n", "right/a": b"2\n", "file of left": b"x\n", "file of right": b"x\n", "other": b"mine\n"}
    folder = place.folder("around", names)
    end = edit_patched(place, BECOME_FOLDERS, "left", "right", folder=folder, ADDS="added\n")
    return end == (1, EDITOR + ": right is no folder\n") and sorted(changed.read(folder).values()) == sorted(names.values())


# a folder that is named becomes a link just when it was looked at
BECOMES_A_LINK = """sys.path.append(os.environ["PARENT"])
from choosing import named
kept = named.find
def find(path, *more):
    found = kept(path, *more)
    if os.path.basename(path) == "named" and not os.path.islink("named"):
        os.rename("named", "moved")
        os.symlink("private", "named")
    return found
named.find = find
"""


def a_named_folder_that_becomes_a_link(place):
    """A folder that is named as LEFT, RIGHT or OUTPUT, and becomes a link when it was looked at, is named: what the link leads to is neither
    read nor written."""
    ends = []
    for words in (["named", "other"], ["other", "named"], ["--output", "named", "named", "other"]):
        shutil.rmtree(os.path.join(place.top, "moved"), ignore_errors=True)
        with contextlib.suppress(FileNotFoundError):
            os.unlink(os.path.join(place.top, "named"))
        names = {"private": b"private\n", "other": b"1\n", "named": b"2\n"}
        folders = [place.folder(name, {"x": data}) for name, data in names.items()]
        end = edit_patched(place, BECOMES_A_LINK, *words)
        is_named = end == (1, "%s: %s: Not a directory\n" % (EDITOR, folders[2]))
        found = [changed.read(folder) for folder in (*folders[:2], os.path.join(place.top, "moved"))]
        ends.append(is_named and found == [{"x": data} for data in names.values()])
    return all(ends)


def a_link_in_the_working_tree(place):
    """A folder or a file of the working tree that git names, and that is a link by now, is named, and what it leads to stays."""
    outside, left = place.folder("outside", {"x": b"private\n"}), os.path.join(place.folder("left", {"x": b"1\n"}), "x")
    os.symlink("outside", os.path.join(place.top, "d"))
    os.symlink("outside/x", os.path.join(place.top, "x"))
    for name in "d/x", "x":
        end = editor(place, left, name, GIT_DIFF_PATH_COUNTER="1")
        if end != (1, EDITOR + ": %s changed meanwhile\n" % name) or changed.read(outside) != {"x": b"private\n"}:
            return False
    return True


ALL = (
    another_repository_meanwhile, another_repository_at_the_start, what_git_leaves_at_work, a_folder_behind_the_last_look, a_folder_that_becomes_a_link,
    a_repository_of_another_user, a_link_that_leads_elsewhere, files_that_become_folders, a_named_folder_that_becomes_a_link, a_link_in_the_working_tree,
    a_file_that_becomes_large, a_link_in_the_tree_of_a_folder, links_where_a_disk_folds_names,
)
