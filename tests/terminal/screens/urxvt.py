"""rxvt-unicode, in Xvfb. It prints its screen to a file."""
import os

from .common import Printed, Window, Xvfb, first_line, need

NAME = "rxvt-unicode"


def version():
    return first_line(need("urxvt"), "-help")


class Urxvt(Printed, Window):
    def __init__(self, folder, width, height):
        self.path, self.height = os.path.join(folder, "printed"), height
        words = [need("urxvt"), "-geometry", "%dx%d" % (width, height), "-fn", "fixed", "-print-pipe", "cat >> '%s'" % self.path, "-e"]
        super().__init__(words, folder, Xvfb.environment())


open_terminal = Urxvt
