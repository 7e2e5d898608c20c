"""vte_window.py WIDTH HEIGHT FOLDER WORD ..: runs the words in a terminal of VTE, as gnome-terminal is one. Its rows are what it
writes to FOLDER/rows once FOLDER/asked has the row of the cursor."""
import os
import sys

import gi

gi.require_version("Gtk", "3.0")
gi.require_version("Vte", "2.91")
from gi.repository import GLib, Gtk, Vte  # noqa: E402


def write_rows(terminal, folder, width, height):
    """Writes the rows if they are asked for."""
    asked = os.path.join(folder, "asked")
    if os.path.exists(asked):
        with open(asked) as file:
            # the rows of VTE are counted from the first one that it ever had
            first = terminal.get_cursor_position()[1] - int(file.read())
        os.remove(asked)
        rows = [terminal.get_text_range(first + row, 0, first + row, width)[0].rstrip("\n") for row in range(height)]
        with open(os.path.join(folder, "written"), "w", encoding="utf-8") as file:
            file.write("".join(row + "\n" for row in rows))
        os.rename(os.path.join(folder, "written"), os.path.join(folder, "rows"))
    return True


def main():
    width, height, folder = int(sys.argv[1]), int(sys.argv[2]), sys.argv[3]
    terminal = Vte.Terminal()
    terminal.set_size(width, height)
    terminal.set_scrollback_lines(0)
    window = Gtk.Window()
    window.add(terminal)
    window.show_all()
    flags = GLib.SpawnFlags.DEFAULT
    terminal.spawn_async(Vte.PtyFlags.DEFAULT, None, sys.argv[4:], None, flags, None, None, -1, None, None)
    terminal.connect("child-exited", lambda *_: Gtk.main_quit())
    GLib.timeout_add(5, write_rows, terminal, folder, width, height)
    Gtk.main()


main()
