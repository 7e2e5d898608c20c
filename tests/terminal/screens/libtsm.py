"""libtsm, the terminal of kmscon."""
from .common import Emulator, compiled, version_of

NAME = "libtsm"


def version():
    return version_of("libtsm")


def open_terminal(folder, width, height):
    return Emulator([compiled("tsm.c", folder, "libtsm")], width, height)
