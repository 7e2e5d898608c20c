"""st, the simple terminal, in Xvfb. It prints its screen to a file."""
import os

from .common import Printed, Window, Xvfb, first_line, need

NAME = "st"


def version():
    return first_line(need("st"), "-v")


class St(Printed, Window):
    def __init__(self, folder, width, height):
        self.path, self.height = os.path.join(folder, "printed"), height
        words = [need("st"), "-g", "%dx%d" % (width, height), "-o", self.path, "-e"]
        super().__init__(words, folder, Xvfb.environment())
        # else it copies to that file all that it is sent
        self.show(b"\x1b[4i")


open_terminal = St
