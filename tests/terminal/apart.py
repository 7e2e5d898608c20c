"""What keeps the tries apart from the user's settings of git and of the front end, and from the rights of the one who runs them."""
import os
import shutil
import subprocess

SETTINGS = {
    "GIT_CONFIG_NOSYSTEM": "1", "GIT_CONFIG_GLOBAL": os.devnull, "GIT_AUTHOR_NAME": "n", "GIT_AUTHOR_EMAIL": "e",
    "GIT_COMMITTER_NAME": "n", "GIT_COMMITTER_EMAIL": "e", "LC_ALL": "C.UTF-8",
    "SELECT_LAYER": "off",
}
WITHOUT_RIGHTS = "setpriv", "--bounding-set", "-dac_override,-dac_read_search"


def without_rights():
    """Returns the words before a command that keep it from what it has no right to, or None if nothing does."""
    if os.geteuid():
        return ()
    is_there = shutil.which(WITHOUT_RIGHTS[0])
    return WITHOUT_RIGHTS if is_there and subprocess.run([*WITHOUT_RIGHTS, "true"]).returncode == 0 else None
