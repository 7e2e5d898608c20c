"""VTE, the terminal of gnome-terminal, in Xvfb. Its Python binding reads its text."""
import os
import subprocess

from .common import HERE, Absent, Window, Xvfb, python_with, whole_lines

NAME = "VTE"
VERSION = "import gi; gi.require_version('Vte', '2.91'); from gi.repository import Vte; print(Vte.get_major_version(), Vte.get_minor_version(), Vte.get_micro_version(), sep='.')"


def python():
    """A Python with the binding of VTE."""
    found = python_with("gi")
    if subprocess.run([found, "-c", VERSION], capture_output=True).returncode:
        raise Absent("there is no VTE for Python")
    return found


def version():
    return subprocess.run([python(), "-c", VERSION], capture_output=True, text=True).stdout.strip()


class Vte(Window):
    def __init__(self, folder, width, height):
        self.folder, self.height = folder, height
        super().__init__([python(), os.path.join(HERE, "vte_window.py"), str(width), str(height), folder], folder, Xvfb.environment())

    def rows(self):
        path = os.path.join(self.folder, "rows")
        with open(os.path.join(self.folder, "asked.new"), "w") as file:
            file.write(str(self.cursor[0]))
        os.rename(file.name, os.path.join(self.folder, "asked"))
        rows = [line.decode() for line in whole_lines(path, self.height)]
        os.remove(path)
        return rows


open_terminal = Vte
