"""tools/release and tools/copy-libraries, where another user or a clone has put something into the folder that they write to, for
tools/dev/try-tools. Nothing is proved or built: a script takes the place of tools/build."""
import os
import shutil
import subprocess

import changed
import trying
from installs import NOBODY, seen

# makes an image with the files that an archive, the crate and a package for Debian are made of
IMAGE = b"""#!/bin/sh
for file in bin/a lib/gabrosty/toolchain lib/gabrosty/rust/a lib/libgabrosty.a lib/liblibc_c.a share/doc/gabrosty/LICENSE-MIT \\
  share/doc/gabrosty/NOTICE share/doc/gabrosty/licences/a include/a
do
  mkdir -p "$(dirname "$2/$file")"
  echo 1 > "$2/$file"
done
cp bindings/c/include/gabrosty.h "$2/include"
"""
KEPT = {"kept": b"kept\n"}


def clone_of(place):
    """Makes a clone that has what packs and copies, and the library scm_errors. Returns its folder."""
    clone = place.folder("clone")
    for path in "crates/scm_errors/src", "crates/scm_errors/specs", "programs/choosing", "tools":
        shutil.copytree(os.path.join(trying.ROOT, path), os.path.join(clone, path))
    for path in "bindings/c/include/gabrosty.h", "crates.txt", "LICENSE-MIT":
        os.makedirs(os.path.dirname(os.path.join(clone, path)), exist_ok=True)
        shutil.copy(os.path.join(trying.ROOT, path), os.path.join(clone, path))
    changed.write_file(os.path.join(clone, "tools/build"), IMAGE)
    return clone


def planted(place, names, is_folder=False):
    """Yields a folder for each way in which one of these names leads away or is in use there, and the name: a link to a file or to a folder, of
    another user and of the user's own, as a clone has it; something of another user; and something of another kind."""
    for name in names:
        for kind in "to a file", "to a folder", "own", "of another", "of another kind":
            folder = place.folder("%s %s" % (kind, name.replace("/", " ")))
            path = os.path.join(folder, name)
            os.makedirs(os.path.dirname(path), exist_ok=True)
            if kind.startswith("of") and is_folder == (kind == "of another"):
                os.makedirs(path)
            elif kind.startswith("of"):
                changed.write_file(path, b"1\n")
            else:
                os.symlink(os.path.join(place.top, "outside" if is_folder or kind == "to a folder" else "outside/kept"), path)
            if kind != "own":
                os.chown(path, NOBODY, NOBODY, follow_symlinks=False)
            os.chmod(folder, 0o1777)
            yield folder, name


def is_refused(command, folder, outside):
    """Whether a command names in one line what is in its way in `folder`, and leaves what is there, and what lies outside, as it was."""
    before = seen(outside), seen(folder)
    done = subprocess.run(command, capture_output=True)
    after = seen(outside), {path: what for path, what in seen(folder).items() if path in before[1]}
    is_well = done.returncode == 2 and before == after and b"is in the way" in done.stderr and b"Traceback" not in done.stderr
    if not is_well:
        print(done)
    return is_well


def behind_links(place, command, outside):
    """Whether a command stops where a link of another user, with a sticky bit around it or without one, leads to its folder, or to one around
    it."""
    shared, before = place.folder("shared"), seen(outside)
    os.symlink(outside, shared + "/link")
    os.chown(shared + "/link", NOBODY, NOBODY, follow_symlinks=False)
    # a folder of another user, which may be in the place of one of the user's
    theirs, ends = place.folder("shared/theirs"), []
    os.symlink(outside, theirs + "/link")
    for path in theirs, theirs + "/link":
        os.chown(path, NOBODY, NOBODY, follow_symlinks=False)
    for mode, path in ((mode, at + name) for mode in (0o1777, 0o775) for at in ("/link", "/theirs/link") for name in ("", "/new")):
        os.chmod(shared, mode)
        ends.append(subprocess.run(command(shared + path), stdout=subprocess.DEVNULL, stderr=subprocess.PIPE))
    return all(end.returncode == 2 and b"another user" in end.stderr for end in ends) and seen(outside) == before


def where_packages_are_put(place):
    """A link, a folder or a file of another user with the name of a package, or of its checksums, is named, and nothing goes there. A file of the
    user's is replaced. Skipped without the rights of two users."""
    if os.geteuid():
        return "that needs another user"
    clone, outside, out = clone_of(place), place.folder("outside", KEPT), place.folder("out")

    def command(folder, name=""):
        kind = "--deb" if name.endswith(".deb") else "--crate" if name.startswith("rust-") else "--archive"
        return ["bash", clone + "/tools/release", kind, folder]

    kinds = "", ".deb", "rust-"
    ends = [subprocess.run(command(out, kind), capture_output=True).returncode for kind in (*kinds, *kinds)]
    names = sorted(os.listdir(out))
    whole = subprocess.run(["sha256sum", "--check", "--quiet", "SHA256SUMS"], cwd=out).returncode
    is_refused_each = [is_refused(command(folder, name), folder, outside) for folder, name in planted(place, names)]
    is_put = ends == [0] * 6 and len(names) == 4 and whole == 0
    return is_put and all(is_refused_each) and behind_links(place, command, outside)


def where_libraries_are_put(place):
    """A link or something of another user in the place of what is copied, or of a folder on the way there, is named, and nothing outside is
    written or removed. What is the user's own is replaced. Skipped without the rights of two users."""
    if os.geteuid():
        return "that needs another user"
    clone, outside, out = clone_of(place), place.folder("outside", {**KEPT, "src/kept": b"1\n", "scm_errors/src/kept": b"1\n"}), place.folder("out")

    def command(folder):
        return [clone + "/tools/copy-libraries", folder, "scm_errors"]

    changed.write(out, {"crates/scm_errors/src/older.rt": b"1\n", "crates/other/x": b"1\n", "crates.txt": b"other:\nscm_errors: x\n"})
    ends = [subprocess.run(command(out), stdout=subprocess.DEVNULL).returncode for _ in range(2)]
    found, source = changed.read(out), changed.read(clone + "/crates/scm_errors")
    copied = {path[len("crates/scm_errors/"):]: what for path, what in found.items() if path.startswith("crates/scm_errors/")}
    is_copied = ends == [0, 0] and copied == source and found["crates/other/x"] == b"1\n" and found["gabrosty/LICENSE-MIT"]
    is_copied = is_copied and found["crates.txt"].splitlines() == [b"scm_errors: thiserror", b"other:"] and set(os.listdir(out)) == {"crates", "crates.txt", "gabrosty"}
    folders = "crates", "crates/scm_errors", "crates/scm_errors/src", "crates/scm_errors/proofs", "gabrosty"
    ways = [*planted(place, folders, is_folder=True), *planted(place, ["crates.txt", "gabrosty/VERSION", "gabrosty/LICENSE-MIT"])]
    return is_copied and all([is_refused(command(folder), folder, outside) for folder, _ in ways]) and behind_links(place, command, outside)


ALL = where_packages_are_put, where_libraries_are_put
