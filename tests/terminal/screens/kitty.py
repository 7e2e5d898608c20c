"""kitty, by the screen that its program has in memory."""
import os

from .common import HERE, Emulator, first_line, need

NAME = "kitty"


def version():
    return first_line(need("kitty"), "--version")


def open_terminal(folder, width, height):
    return Emulator([need("kitty"), "+launch", os.path.join(HERE, "kitty_stream.py")], width, height)
