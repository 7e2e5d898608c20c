"""The programs without a proof, for tools/dev/try-tools: they say so, and nothing takes them for proved ones."""
import os
import shutil
import subprocess

import changed
import options
import starts
import trying
from places import Place

PROGRAMS = "scm-select", "git-select", "gabrosty-diff-editor", "gabrosty-merge-tool"
LIBRARY, PROVED = "out/unproved/library/libscm_c.a", "crates/scm_c/out/libscm_c.a"


def says_so(place, name, version):
    """Whether a program says its version, and that nothing was proved for it."""
    status, said = place.call(os.path.join(place.prefix, "bin", name), "--version")
    return status == 0 and said.startswith("%s %s\nnothing was proved for this build: commit " % (name, version))


def is_taken_for_proved(folder):
    """Whether tools/build takes the library without a proof for the proved one, in a clone that has it in the other's place."""
    clone = os.path.join(folder, "clone")
    subprocess.run(["git", "clone", "--quiet", trying.ROOT, clone], check=True)
    os.makedirs(os.path.dirname(os.path.join(clone, PROVED)))
    for end in ("", ".sources"):
        shutil.copy(trying.ROOT / (LIBRARY + end), os.path.join(clone, PROVED + end))
    return subprocess.run([os.path.join(clone, "tools/build"), "--is-proved"]).returncode != 1


def keeps_marks(prefix):
    """Whether the marks outlive a check that fails."""
    place = Place(prefix)
    try:
        return starts.a_front_end_that_is_killed(place)
    finally:
        place.close()


def without_a_proof(folder, version):
    """Installs the programs without a proof into `folder`, and uses them. Returns what holds, by its words."""
    prefix = os.path.join(folder, "unproved")
    done = subprocess.run([trying.ROOT / "tools/install", "--unproved", prefix], stdout=subprocess.DEVNULL)
    if done.returncode:
        return {"an install without a proof": False}
    place = Place(prefix)
    try:
        return {
            "each program without a proof says so": all([says_so(place, name, version) for name in PROGRAMS]),
            "a program without a proof": options.stage_all(place, *changed.CASES["text edits"]),
            "marks outlive a check that fails": keeps_marks(prefix),
            "no library without a proof is taken for a proved one": not is_taken_for_proved(folder),
        }
    finally:
        place.close()
