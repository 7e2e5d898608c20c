"""What the scripts that try programs share: they build a program, run it beside other runs, and count what was right."""
import concurrent.futures
import os
import subprocess
import sys
import time

from crates import ROOT, below, read_crates

SCRIPTS = ROOT / "examples/scripts"

# runs beside one another, one for each processor
pool = concurrent.futures.ThreadPoolExecutor(os.cpu_count() or 1)

begun = time.monotonic()
passed = failed = 0


def count(is_right, words):
    """Prints the line of what was tried, and counts it."""
    global passed, failed
    if is_right:
        passed += 1
    else:
        failed += 1
    print(f"{'same' if is_right else 'differs'}: {words}", flush=True)


def stop(words):
    """Ends where nothing can be tried."""
    count(False, words)
    end()


def end():
    """Prints the last lines, and ends."""
    print(f"took {time.monotonic() - begun:.0f} s")
    print(f"{passed} passed, {failed} failed")
    sys.exit(0 if failed == 0 else 1)


def with_libraries(crate):
    """Returns a crate and the repository's crates that it uses."""
    return {crate} | below(crate, read_crates((ROOT / "crates.txt").read_text()))


def is_older(made, crates):
    """Whether a file is not there, or a source of the crates is newer."""
    if not made.exists():
        return True
    parts = [ROOT / "crates" / crate / part for crate in crates for part in ("src", "specs", "proofs")]
    sources = [source for part in parts for source in part.rglob("*") if source.is_file()]
    return any(source.stat().st_mtime > made.stat().st_mtime for source in sources)


def built(crate, name, *words):
    """A file that a command makes in a crate's folder `out`. It is made where it is not there or a source is newer; the crate is proved
    first, which takes long."""
    made = ROOT / "crates" / crate / "out" / name
    if is_older(made, with_libraries(crate)):
        print(f"building {name}, of which the crate is proved first", file=sys.stderr, flush=True)
        with open(SCRIPTS / "letter", "rb") as script:
            subprocess.run(words, cwd=made.parent.parent, stdin=script, stdout=subprocess.DEVNULL)
        if is_older(made, with_libraries(crate)):
            stop(f"{name} is not built")
    return made


def program(crate):
    """The program of a crate."""
    return built(crate, crate, "rt", "run")


def test_program(crate):
    """The program of a crate's tests."""
    return built(crate, f"{crate}_tests", "rt", "test")
