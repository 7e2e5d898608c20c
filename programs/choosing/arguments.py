"""The arguments of a program. This is loaded only where there are some."""
import argparse
import os
import sys

from .said import say
from .words import printable


class Arguments(argparse.ArgumentParser):
    """Reads the arguments of a program. What it says of them has no control character."""

    def __init__(self, name, words, epilogue):
        layout = argparse.RawDescriptionHelpFormatter
        super().__init__(name, None, words, epilogue, formatter_class=layout, allow_abbrev=False)

    def error(self, message):
        super().error(printable(message))

    def _print_message(self, message, file=None):
        """Prints the help, the version, or what is wrong. Ends with status 1 if that cannot be written."""
        file = file or sys.stderr
        try:
            print(message or "", end="", file=file, flush=True)
        except OSError as error:
            os.dup2(os.open(os.devnull, os.O_WRONLY), file.fileno())
            say("the output cannot be written: %s" % error.strerror)
            sys.exit(1)
