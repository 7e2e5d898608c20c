"""What the modules share that make parts of files: a part lies between two lines, which name what makes it."""
import re


class Wrong(Exception):
    """What is wrong, in one line."""


def with_part(path, root, begin, end, made, text=None):
    """The text of a file (or this `text` of it) with what is made between the line that has `begin` and the next one that has `end`."""
    parts = r"(.*?^[^\n]*%s[^\n]*\n)(.*?)(^[^\n]*%s[^\n]*\n.*)" % (begin, end)
    found = re.fullmatch(parts, path.read_text() if text is None else text, re.M | re.S)
    if not found:
        raise Wrong("%s has no lines %r and %r" % (path.relative_to(root), begin, end))
    gap = "\n" if path.suffix == ".md" else ""
    return found[1] + gap + made + gap + found[3]


def write_all(texts, root, is_check):
    """Writes the text of each path. With `is_check` it writes nothing, and fails if a file has another one."""
    for path, text in texts.items():
        if not is_check:
            path.parent.mkdir(exist_ok=True)
            path.write_text(text)
        elif not path.exists() or path.read_text() != text:
            raise Wrong("%s is not what tools/dev/make-pages writes: run it" % path.relative_to(root))


def roff(text):
    """A text of ours as a man page has it, where `CODE` is bold and *VALUE* is italic."""
    text = text.replace("\\", "\\e").replace("-", "\\-")
    return re.sub(r"\*(\w+)\*", r"\\fI\1\\fP", re.sub(r"`([^`]+)`", r"\\fB\1\\fP", text))
