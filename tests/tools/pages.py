"""The keys that a page tells its reader to press, for tools/dev/try-tools, and the terminals on which they are typed."""
import re

import trying
from apart import SETTINGS
from places import Repository
from typed import Typed

# columns and rows
SIZES = (80, 24), (120, 40)
# the variables of a reader, who sets none of the front end's
READER = {name: value for name, value in SETTINGS.items() if not name.startswith("SELECT_")}
TIMES = {"": 1, "twice": 2, "three times": 3, "four times": 4, "eight times": 8}
# the files of the page of git select, before and after
OLD = {"README.md": b"# Greeting\n", "app.py": b'# says hello\n\ndef main():\n    print("hello")\n    return 0\n'}
NEW = {
    "README.md": b"# Greeting\n\nIt greets the world.\n",
    "app.py": b'# says hello\n\ndef main():\n    print("hello, world")\n    return 1\n',
}
STAGED = OLD["app.py"].replace(b"0", b"1").decode()


def keys_of(page):
    """Returns the keys that the paragraph of `page` names that begins with `Press`, in order."""
    paragraph = re.search(r"^Press (.*?)\n\n", page, re.M | re.S)[1]
    sentence = " ".join(paragraph.split()).partition(". ")[0]
    found = re.findall(r"`([^` ]+)`(?: (%s))?" % "|".join(filter(None, TIMES)), sentence)
    return [key for key, times in found for _ in range(TIMES[times])]


def words_of(screen):
    """Returns the words of each row that has some."""
    return [row.split() for row in screen.replace('"\n"', "\n").strip('"\n').splitlines() if row.split()]


def shows_and_stages(place, size, page):
    """Whether the keys of `page` lead to the screen that it shows, on a terminal of `size`, and then stage what it says."""
    repository = Repository(place, OLD, NEW, "repository-%d" % size[0])
    typed = Typed(["env", "-u", "SELECT_LAYER", "git", "select"], *size, place.environment, repository.folder)
    *keys, last = keys_of(page)
    for key in keys:
        typed.press(key)
    # without the last row, which the page describes
    shown = words_of(typed.screen().decode())[:-1]
    typed.press(last)
    wanted = re.search(r"^```text\n(.*?)^```$", page, re.M | re.S)[1]
    is_staged = typed.end() == 0 and typed.said().endswith("staged: app.py\n") and repository.git("show", ":app.py") == STAGED
    return shown == words_of(wanted) and is_staged and repository.git("diff", "--cached", "--name-only") == "app.py\n"


def the_page_of_git_select(place):
    """The page of git select shows the screen to which its keys lead, and these stage what it says."""
    page = (trying.ROOT / "programs/git-select/README.md").read_text()
    return all([shows_and_stages(place, size, page) for size in SIZES])


ALL = (the_page_of_git_select,)
