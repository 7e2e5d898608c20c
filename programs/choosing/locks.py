"""Locks on open files and folders, by which one call of a program sees that another is at work."""
import fcntl


def lock_open(opened, waits=False):
    """Locks a file or a folder that is open until it is closed, also by the end of the program. Returns whether nobody else has
    locked it. With `waits` it waits until nobody has."""
    try:
        fcntl.flock(opened, fcntl.LOCK_EX | (0 if waits else fcntl.LOCK_NB))
    except BlockingIOError:
        return False
    except OSError:
        # some disks have no such locks
        pass
    return True
