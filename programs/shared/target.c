/* The file or folder that the user names, where links are followed one by one. No proof covers this file. */
#define _GNU_SOURCE
#include "target.h"
#include "access.h"
#include "files.h"

#include <errno.h>
#include <fcntl.h>
#include <linux/magic.h>
#include <stdlib.h>
#include <string.h>
#include <sys/vfs.h>
#include <unistd.h>

/* How many links are followed, as by the kernel. */
enum { MOST_LINKS = 40 };

/* A walk along a path: the folder that it came to, and what is left of the path. */
typedef struct walk {
    int folder;
    char rest[2 * PATH_MAX];
    int links;
    bool is_to_be_read; /* what is found: then a file of another user will do */
    bool is_led;        /* by a link of another user than this one and root */
    bool is_foreign;    /* another user may have put here the folder that it came to, or one around it */
} walk;

/* Returns whether what is in the folder of a walk is the user's, or the folder's owner's, or nobody else may put something there. So the kernel
 * looks at links, if it is told to (fs.protected_symlinks), but only where a sticky bit is. Without that bit, only a file may be another's: who
 * may write to the folder may replace it, and it leads nowhere. In a folder that another user may have put there, its owner counts as any other
 * user. A second name of a link or of a pipe may have been given by another user, too. */
static bool is_trusted(const walk *walk, const struct stat *status) {
    struct stat around;
    bool is_known = fstat(walk->folder, &around) == 0, is_file = S_ISREG(status->st_mode);
    bool is_shared = is_known && (around.st_mode & OTHERS_MAY_WRITE), is_sticky = around.st_mode & S_ISVTX;
    bool is_anyones = (is_shared && (is_sticky || !is_file)) || (walk->is_foreign && !is_file);
    bool is_of_owner = is_known && !walk->is_foreign && status->st_uid == around.st_uid;
    bool has_more_names = is_shared && is_sticky && !is_file && status->st_nlink > 1;
    bool is_own = is_known && (!is_anyones || ((status->st_uid == geteuid() || is_of_owner) && !has_more_names));
    errno = is_known && !is_own ? OF_ANOTHER : errno;
    return is_own;
}

/* Returns whether something is this user's or root's. */
static bool is_own(const struct stat *status) { return status->st_uid == 0 || status->st_uid == geteuid(); }

/* Returns whether another user may have put the folder `inner` into the folder `around`, or, if the walk goes up from `inner`, may have moved
 * that into `around`. */
static bool can_be_foreign(const struct stat *around, const struct stat *inner, bool is_up) {
    const struct stat *next = is_up ? around : inner, *before = is_up ? inner : around;
    return (is_up || (around->st_mode & OTHERS_MAY_WRITE)) && !is_own(next) && next->st_uid != before->st_uid;
}

/* Returns whether another user may have put an open folder where it is, or one around it. */
static bool lies_in_foreign(int folder) {
    int at = openat(folder, ".", O_PATH | O_DIRECTORY | O_CLOEXEC);
    bool is_foreign = false, is_root = at < 0;
    while (!is_foreign && !is_root) {
        struct stat inner, around;
        int above = openat(at, "..", O_PATH | O_DIRECTORY | O_CLOEXEC);
        bool is_known = above >= 0 && fstat(at, &inner) == 0 && fstat(above, &around) == 0;
        is_root = !is_known || (inner.st_dev == around.st_dev && inner.st_ino == around.st_ino);
        is_foreign = is_known && can_be_foreign(&around, &inner, false);
        close(at);
        at = above;
    }
    if (at >= 0) {
        close(at);
    }
    return is_foreign;
}

/* Goes on in another folder. Returns whether it is open. */
static bool enter(walk *walk, int folder) {
    int error = errno;
    if (walk->folder >= 0) {
        close(walk->folder);
    }
    walk->folder = folder;
    errno = error;
    return folder >= 0;
}

/* Takes bytes off the rest of the path, and the slashes behind them. Returns how many these are. */
static size_t take_off(walk *walk, size_t length) {
    size_t slashes = strspn(walk->rest + length, "/");
    const char *rest = walk->rest + length + slashes;
    memmove(walk->rest, rest, strlen(rest) + 1);
    return slashes;
}

/* Begins at the root, if the path does, or else in the current folder, unless the walk goes on. */
static bool begin(walk *walk) {
    bool is_absolute = take_off(walk, 0) > 0;
    if (walk->folder >= 0 && !is_absolute) {
        return true;
    }
    bool is_open = enter(walk, open(is_absolute ? "/" : ".", O_PATH | O_DIRECTORY | O_CLOEXEC));
    walk->is_foreign = is_open && !is_absolute && lies_in_foreign(walk->folder);
    return is_open;
}

/* Goes on in the folder `name`, or in the one around. */
static bool enter_named(walk *walk, const char *name) {
    struct stat before, next;
    int folder = openat(walk->folder, name, O_PATH | O_DIRECTORY | O_NOFOLLOW | O_CLOEXEC);
    bool is_up = !strcmp(name, "..");
    bool is_known = folder >= 0 && fstat(walk->folder, &before) == 0 && fstat(folder, &next) == 0;
    walk->is_foreign = walk->is_foreign || (is_known && can_be_foreign(is_up ? &next : &before, is_up ? &before : &next, is_up));
    return enter(walk, folder) && is_known;
}

/* Puts the target of a link that is open before the rest of the path. */
static bool put_target(walk *walk, int opened, bool is_last) {
    char link[2 * PATH_MAX];
    ssize_t length = readlinkat(opened, "", link, PATH_MAX);
    size_t left = strlen(walk->rest);
    if (length < 0) {
        return false;
    }
    if (length == 0 || (size_t)length + left + 2 > sizeof link || ++walk->links > MOST_LINKS) {
        errno = walk->links > MOST_LINKS ? ELOOP : length == 0 ? ENOENT : ENAMETOOLONG;
        return false;
    }
    link[length] = is_last ? 0 : '/';
    memcpy(link + length + 1, walk->rest, left + 1);
    memcpy(walk->rest, link, (size_t)length + left + 2);
    return begin(walk);
}

/* Follows a link, if it may be. It is opened, as another one may have come there since it was looked at. */
static bool follow_link(walk *walk, const char *name, bool is_last) {
    struct stat status;
    int opened = openat(walk->folder, name, O_PATH | O_NOFOLLOW | O_CLOEXEC);
    bool is_known = opened >= 0 && fstat(opened, &status) == 0;
    walk->is_led = walk->is_led || (is_known && !is_own(&status));
    bool is_followed = is_known && is_trusted(walk, &status) && put_target(walk, opened, is_last);
    int error = errno;
    if (opened >= 0) {
        close(opened);
    }
    errno = error;
    return is_followed;
}

/* Returns whether a folder is one of /proc. */
static bool is_of_processes(int folder) {
    struct statfs system;
    return fstatfs(folder, &system) == 0 && system.f_type == PROC_SUPER_MAGIC;
}

/* Takes the next name off the rest of the path. Sets `is_last` to whether nothing comes behind it, not even a slash. */
static bool take_name(walk *walk, char *name, bool *is_last) {
    size_t length = strcspn(walk->rest, "/");
    if (length > NAME_MAX) {
        errno = ENAMETOOLONG;
        return false;
    }
    memcpy(name, length > 0 ? walk->rest : ".", length > 0 ? length : 1);
    name[length > 0 ? length : 1] = 0;
    *is_last = take_off(walk, length) == 0;
    return true;
}

/* Takes a step. Sets `is_found` if it came to what the path names. */
static bool step(walk *walk, target *target, bool *is_found) {
    bool is_last = false;
    struct stat *status = &target->status;
    memset(status, 0, sizeof *status);
    if (!take_name(walk, target->name, &is_last)) {
        return false;
    }
    bool is_there = fstatat(walk->folder, target->name, status, AT_SYMLINK_NOFOLLOW) == 0;
    *is_found = is_last && (!is_there ? errno == ENOENT : !S_ISLNK(status->st_mode) || is_of_processes(walk->folder));
    if (*is_found || !is_there) {
        bool is_any = !is_there || S_ISDIR(status->st_mode) || walk->is_to_be_read;
        return *is_found && (is_any || is_trusted(walk, status));
    }
    if (S_ISLNK(status->st_mode)) {
        return follow_link(walk, target->name, is_last);
    }
    return enter_named(walk, target->name);
}

/* Finds what a path names, for a walk that is to begin. */
static bool find(walk *walk, const char *path, target *target) {
    bool is_found = false;
    if (!*path || strlen(path) >= PATH_MAX) {
        errno = *path ? ENAMETOOLONG : ENOENT;
        return false;
    }
    strcpy(walk->rest, path);
    bool is_well = begin(walk);
    while (is_well && !is_found) {
        is_well = step(walk, target, &is_found);
    }
    if (!is_well) {
        enter(walk, -1);
    }
    target->folder = walk->folder;
    return is_well;
}

bool find_target(const char *path, target *target) {
    walk walk = {.folder = -1};
    return find(&walk, path, target);
}

/* Opens what was found, to be read. It waits for a pipe only if one was found. Sets errno to ESTALE if something of another kind came there
 * since. */
static int open_found_file(const target *target) {
    struct stat now;
    mode_t kind = target->status.st_mode & S_IFMT;
    int how = kind == S_IFLNK ? 0 : kind == S_IFREG ? O_NOFOLLOW | O_NONBLOCK : O_NOFOLLOW;
    int file = openat(target->folder, target->name, O_RDONLY | O_NOCTTY | O_CLOEXEC | how);
    bool is_other = file >= 0 && kind == S_IFREG && (fstat(file, &now) != 0 || !S_ISREG(now.st_mode));
    if (is_other) {
        close(file);
        errno = ESTALE;
    }
    return is_other ? -1 : file;
}

int open_named_file(const char *path) {
    walk walk = {.folder = -1, .is_to_be_read = true};
    target target;
    if (!find(&walk, path, &target)) {
        return -1;
    }
    int file = open_found_file(&target), error = errno;
    close(target.folder);
    errno = error;
    return file;
}

int open_own_file(const char *path) {
    walk walk = {.folder = -1, .is_to_be_read = true};
    target target;
    struct stat around, found;
    if (!find(&walk, path, &target)) {
        return -1;
    }
    int file = openat(target.folder, target.name, O_RDONLY | O_NOFOLLOW | O_NONBLOCK | O_NOCTTY | O_CLOEXEC);
    bool is_known = file >= 0 && fstat(target.folder, &around) == 0 && fstat(file, &found) == 0;
    bool is_read = is_known && !walk.is_led && is_own(&around) && is_own(&found);
    int error = is_known ? EPERM : errno;
    close(target.folder);
    if (file >= 0 && !is_read) {
        close(file);
    }
    errno = error;
    return is_read ? file : -1;
}

int open_named_folder(const char *path) {
    char inside[PATH_MAX + 2];
    target target;
    size_t length = strlen(path);
    if (length >= PATH_MAX - 2) {
        errno = ENAMETOOLONG;
        return -1;
    }
    memcpy(inside, path, length);
    strcpy(inside + length, length > 0 ? "/." : "");
    if (!find_target(inside, &target)) {
        return -1;
    }
    int folder = openat(target.folder, ".", O_RDONLY | O_DIRECTORY | O_CLOEXEC), error = errno;
    close(target.folder);
    errno = error;
    return folder;
}
