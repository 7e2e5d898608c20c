"""What a program says. All of it goes through this file, so that no control character of a path, or of another program's text,
reaches the terminal."""
import codecs
import os
import sys

from .waiting import erase, write
from .words import Stop, printable


def program():
    """Returns the name of the program."""
    return os.path.basename(sys.argv[0])


def take_standard_files():
    """Fills the places of standard files that are closed, so that no other file comes there, and has standard output take each
    character. PYTHONIOENCODING is obeyed, which Python does not look at where it runs apart from its environment."""
    while True:
        file = os.open(os.devnull, os.O_RDWR)
        if file > 2:
            break
    os.close(file)
    if sys.stdout:
        sys.stdout.reconfigure(encoding=encoding_asked_for(), errors="backslashreplace")


def encoding_asked_for():
    """Returns the encoding that the user asks for, or None. Some take no text, or do not take each one."""
    name = os.environ.get("PYTHONIOENCODING", "").partition(":")[0]
    try:
        "\u20ac\n".encode(name or "utf-8", "backslashreplace")
        return codecs.lookup(name).name if name else None
    except (LookupError, UnicodeError):
        return None


def say(text):
    """Says a line on standard error. If it cannot be written it is lost, and nothing else stops for that."""
    erase()
    encoding = sys.stderr.encoding if sys.stderr else "utf-8"
    write((printable("%s: %s" % (program(), text)) + "\n").encode(encoding, "backslashreplace"))


def tell(lines, done):
    """Prints `lines`. Stops with the words `done` if they cannot be written."""
    erase()
    try:
        print("".join(printable(line) + "\n" for line in lines), end="", flush=True)
    except OSError as error:
        # what could not be written is not tried once more at the end
        os.dup2(os.open(os.devnull, os.O_WRONLY), 1)
        raise Stop("%s: %s" % (done, error.strerror)) from None
