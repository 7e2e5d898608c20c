"""tools/dev/prove-libraries on a small repository of its own, with another rt, for tools/dev/try-tools."""
import os
import shutil
import subprocess
import sys

import changed
import trying

# a line of it has a crate; b and c do not wait for one another
CRATES = b"# lowest first\na: std\nb: a\nc: a serde\nd: b c std\nother staticlib: d\ntests: d\n"
# an rt that finds those below its crate built, keeps something, and says when it began and ended
RT = b"""#!/bin/sh
[ "$1" = lib ] || exit 9
name=$(basename "$PWD")
for below in ../*/; do
  below=$(basename "$below")
  [ "$below" = "$name" ] || [ -e "../$below/out/rlib/$below.rlib" ] || exit 8
done
[ ! -L out ] && [ -f src/lib.rt ] || exit 7
echo "begin $name $(sed 1q out/incremental/kept 2> /dev/null)" >> "$SAID"
sleep 1
mkdir -p out/rlib out/incremental
echo kept > out/incremental/kept
echo "end $name" >> "$SAID"
echo "the last line of $name"
[ "$name" != "$FAILS" ] || exit 1
touch "out/rlib/$name.rlib"
"""


def call(place, *words, fails=""):
    """Returns the status of a call, what it said, and the lines of the other rt."""
    said = os.path.join(place.top, "said")
    changed.write_file(said, b"")
    path = os.path.join(place.top, "programs") + os.pathsep + os.environ["PATH"]
    command = [sys.executable, os.path.join(place.top, "repository/tools/dev/prove-libraries"), *words]
    more = {"PATH": path, "SAID": said, "FAILS": fails}
    done = subprocess.run(command, stdout=subprocess.PIPE, stderr=subprocess.STDOUT, text=True, env={**os.environ, **more})
    with open(said) as file:
        return done.returncode, done.stdout, file.read().splitlines()


def libraries_side_by_side(place):
    """Each is proved once, behind those below it, and no other; what it keeps is there for the next run. If one fails, its last
    lines are said, and what is above it is not begun."""
    names = "a", "b", "c", "d"
    sources = {"crates/%s/src/lib.rt" % name: b"// %s\n" % name.encode() for name in names}
    top = place.folder("repository", {**sources, "crates.txt": CRATES, "out/proving-left/crates/a/src/lib.rt": b""})
    programs = place.folder("programs", {"rt": ("run", RT)})
    os.makedirs(os.path.join(top, "tools/dev"))
    for script in ("prove-libraries", "crates.py"):
        shutil.copy(trying.ROOT / "tools/dev" / script, os.path.join(top, "tools/dev"))
    status, said, lines = call(place, "d", fails="c")
    is_stopped = status == 1 and "the last line of c\n" in said and "c is not proved" in said and "begin d " not in lines
    status, said, lines = call(place, "d")
    order = [line.split()[1] for line in lines if line.startswith("end ")]
    is_done = status == 0 and "4 libraries are proved" in said and sorted(order) == [*names] and (order[0], order[3]) == ("a", "d")
    is_kept = {"begin a kept", "begin c kept", "begin d "} < set(lines)
    found = {path for path in changed.read(top) if "/out/" in path or path.startswith("out/")}
    is_there = found == {"crates/%s/out/%s" % (name, part) for name in names for part in ("rlib/%s.rlib" % name, "incremental/kept")}
    unknown = call(place, "nothing")
    os.unlink(os.path.join(programs, "rt"))
    return is_stopped and is_done and is_kept and is_there and unknown[0] == 2 and "crates.txt has no nothing" in unknown[1]


ALL = libraries_side_by_side,
