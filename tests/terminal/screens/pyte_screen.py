"""pyte, a terminal in Python."""
import os
import subprocess

from .common import HERE, Emulator, python_with

NAME = "pyte"
VERSION = "import importlib.metadata; print(importlib.metadata.version('pyte'))"


def version():
    return subprocess.run([python_with("pyte"), "-c", VERSION], capture_output=True, text=True).stdout.strip()


def open_terminal(folder, width, height):
    return Emulator([python_with("pyte"), os.path.join(HERE, "pyte_stream.py")], width, height)
