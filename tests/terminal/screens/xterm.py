"""xterm, in Xvfb. It prints its screen to a file."""
import os

from .common import Printed, Window, Xvfb, first_line, need

NAME = "xterm"


def version():
    return first_line(need("xterm"), "-version")


class Xterm(Printed, Window):
    def __init__(self, folder, width, height):
        self.path, self.height = os.path.join(folder, "printed"), height
        settings = ["printAttributes: 0", "printerAutoClose: true", "printerCommand: cat >> '%s'" % self.path]
        words = [need("xterm"), "-u8", "-geometry", "%dx%d" % (width, height), *(word for it in settings for word in ("-xrm", "*" + it)), "-e"]
        super().__init__(words, folder, Xvfb.environment())


open_terminal = Xterm
