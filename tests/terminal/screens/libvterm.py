"""libvterm, the terminal of neovim and of vim's `:terminal`."""
from .common import Emulator, compiled, version_of

NAME = "libvterm"


def version():
    return version_of("vterm")


def open_terminal(folder, width, height):
    return Emulator([compiled("vterm.c", folder, "vterm")], width, height)
