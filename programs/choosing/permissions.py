"""Who may use a file or a folder: its bits, its group, and the lists that the system keeps of single users and groups."""
import collections
import errno
import os

# the list of a file or a folder, and that of what is made in a folder, as Linux keeps them
LISTS = ACCESS, _ = "system.posix_acl_access", "system.posix_acl_default"
ALL, ALL_THREE = 0o7, 0o11
# also the bits of a folder by which its files keep its group, and stay their owners'
OF_FOLDER = 0o3777

# what the system says of something that has no such list, or lies on a disk that keeps none
NO_LIST = errno.ENODATA, errno.ENOTSUP, errno.EOPNOTSUPP
# the bytes of a list that the system does not say: it can be given to no other file
UNKNOWN = b""

# `lists` has a pair for each list that is there: its name and its bytes. Or it is None: then these are what may be given at most.
Permissions = collections.namedtuple("Permissions", "bits group lists")
# what no other file limits
OF_ANY_FILE = Permissions(0o666, None, ())


def lists_of(opened, names=LISTS):
    """Returns those of the lists `names` that what is open has. One that may be there, and cannot be read, is UNKNOWN."""
    found = []
    for name in names if hasattr(os, "getxattr") else ():
        try:
            found.append((name, os.getxattr(opened, name)))
        except OSError as error:
            if error.errno not in NO_LIST:
                found.append((name, UNKNOWN))
    return tuple(found)


def remove_list(opened, name):
    """Takes a list away from what is open, if it is there. Returns whether it has none then."""
    try:
        os.removexattr(opened, name)
    except OSError as error:
        return error.errno in NO_LIST
    return True


def permissions_of_file(opened):
    """Returns the permissions of an open file. Another user's bits that set a user or a group are never taken over."""
    found = os.fstat(opened)
    return Permissions(found.st_mode & 0o777, found.st_gid, lists_of(opened, (ACCESS,)))


def permissions_of_folder(opened):
    found = os.fstat(opened)
    return Permissions(found.st_mode & OF_FOLDER, found.st_gid, lists_of(opened))


def narrowed(permissions):
    """Returns permissions that give nobody more than `permissions`, whatever group the file has: what its group and all others may
    do. Single users and groups of a list may have less, so where one is, its owner alone has something."""
    bits = permissions.bits
    common = 0 if permissions.lists else bits >> 3 & bits & ALL
    return Permissions(bits & ~0o77 | common * ALL_THREE, None, ())


def at_most(permissions):
    """Returns what may be given to a new file or folder that these are the permissions of a source of: neither its lists, by which
    somebody could keep a way into it, nor its group."""
    return narrowed(permissions)._replace(lists=None) if permissions.lists else permissions._replace(lists=None)


def permissions_of_both(first, second):
    """Returns the permissions that each of two files gives. One of them may be None."""
    if first is None or second is None:
        return second if first is None else first
    if first[1:] != second[1:]:
        first, second = narrowed(first), narrowed(second)
    return Permissions(first.bits & second.bits, *first[1:])


def remove_lists(opened):
    """Takes all lists away from what is open. Returns whether it has none then."""
    return all([remove_list(opened, name) for name, _ in lists_of(opened)])


def set_lists(opened, lists):
    """Gives what is open, which has no list, these ones. Raises OSError if one of them is not known."""
    for name, data in lists:
        if data == UNKNOWN:
            raise OSError(errno.EIO, "its list is not known")
        os.setxattr(opened, name, data)


def give_group_and_lists(opened, permissions):
    """Gives what is open, which has no list, the group and the lists of these permissions, unless they are what may be given at most.
    Returns whether it has the group, or any will do, and the lists."""
    is_of_group = permissions.group in (None, os.fstat(opened).st_gid)
    if permissions.lists is None:
        return is_of_group
    try:
        if not is_of_group:
            os.fchown(opened, -1, permissions.group)
        set_lists(opened, permissions.lists)
        return True
    except OSError:
        return False


def give(opened, permissions):
    """Gives a new file or folder of this user's that is open these permissions. If it has not the group or the lists, nobody has more
    than they say: and nobody but the owner has anything if lists may be left of what is around it."""
    has_none = remove_lists(opened)
    if not give_group_and_lists(opened, permissions):
        has_none = remove_lists(opened) and has_none
        permissions = narrowed(permissions)
    os.fchmod(opened, permissions.bits if has_none else permissions.bits & ~0o77)


def permissions_of_new(source, own):
    """Returns what a new file or folder has at most that is made of one with the permissions `source`, less the bits that the user's
    mask takes from each. The owner has the bits `own`."""
    mask = os.umask(0o077)
    os.umask(mask)
    most = at_most(source)
    return most._replace(bits=most.bits & ~mask | own)
