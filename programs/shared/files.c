/* Bytes in memory and in files. No proof covers this file. */
#define _GNU_SOURCE
#include "files.h"

#include <errno.h>
#include <fcntl.h>
#include <stdarg.h>
#include <stdio.h>
#include <stdlib.h>
#include <string.h>
#include <sys/random.h>
#include <sys/stat.h>
#include <unistd.h>

enum { OWN = 0600, FIRST_BYTES = 64 };

bool append(text *text, const char *bytes, size_t length) {
    size_t end = text->length + length;
    if ((!text->bytes || text->room < end) && !make_room(text, end < FIRST_BYTES ? FIRST_BYTES : end + end / 2)) {
        return false;
    }
    if (length > 0) {
        memcpy(text->bytes + text->length, bytes, length);
    }
    end_at(text, end);
    return true;
}

bool append_words(text *text, const char *form, ...) {
    va_list words;
    char *made = NULL;
    va_start(words, form);
    int length = vasprintf(&made, form, words);
    va_end(words);
    bool is_added = length >= 0 && append(text, made, (size_t)length);
    if (length >= 0) {
        free(made);
    }
    return is_added;
}

/* Closes a file to which all was written, if `is_written`. Returns false with errno set if that is not so, or closing fails. */
static bool close_written(int file, bool is_written) {
    int error = errno;
    bool is_closed = close(file) == 0;
    if (!is_written) {
        errno = error;
    }
    return is_written && is_closed;
}

const char *reason(void) {
    return errno == EOVERFLOW    ? "it has more than 1,073,741,824 bytes"
           : errno == ESTALE     ? "it changed meanwhile"
           : errno == OF_ANOTHER ? "it is another user's, in a folder that others may write to"
           : errno == TOO_DEEP   ? "it lies in more than 4,096 folders"
                                 : strerror(errno);
}

void hold_signals(sigset_t *before) {
    /* those by which a check or the program itself fails are heard at once: nothing goes on behind them */
    static const int heard[] = {SIGXFSZ, SIGILL, SIGSEGV, SIGBUS, SIGFPE, SIGABRT};
    sigset_t held;
    signal(SIGXFSZ, SIG_IGN);
    sigfillset(&held);
    for (size_t i = 0; i < sizeof heard / sizeof *heard; i++) {
        sigdelset(&held, heard[i]);
    }
    sigprocmask(SIG_BLOCK, &held, before);
}

void release_signals(const sigset_t *before) { sigprocmask(SIG_SETMASK, before, NULL); }

bool is_asked_to_end(void) {
    static const int numbers[] = {SIGINT, SIGQUIT, SIGHUP, SIGTERM};
    struct sigaction action;
    sigset_t held;
    bool is_known = sigpending(&held) == 0;
    for (size_t i = 0; i < sizeof numbers / sizeof *numbers && is_known; i++) {
        /* one that is ignored is held back too */
        if (sigismember(&held, numbers[i]) && sigaction(numbers[i], NULL, &action) == 0 && action.sa_handler != SIG_IGN) {
            return true;
        }
    }
    return false;
}

bool read_source(const char *path, text *into, mode_t *permissions) {
    struct stat now;
    int file = open_named_file(path);
    if (file >= 0 && fstat(file, &now) == 0 && S_ISREG(now.st_mode)) {
        limit_permissions(file, permissions);
    }
    return read_and_close(file, into);
}

/* Writes an open file that is new, gives it its access, and waits until it is on the disk. Closes it. */
static bool fill(int file, const access_rules *access, piece bytes) {
    return close_written(file, write_bytes(file, bytes.bytes, bytes.length) && give_access(file, access) && fsync(file) == 0);
}

bool write_new_file(int folder, const char *name, const access_rules *access, piece bytes) {
    int file = openat(folder, name, O_WRONLY | O_CREAT | O_EXCL | O_NOFOLLOW | O_CLOEXEC, OWN);
    bool is_made = file >= 0, is_filled = is_made && fill(file, access, bytes);
    int error = errno;
    if (is_made && !is_filled) {
        unlinkat(folder, name, 0);
    }
    errno = error;
    return is_filled;
}

/* ---- A file that is replaced ---- */

/* A name of which nobody knows before that it will be used. */
enum { RANDOM_BYTES = 8 };
typedef struct random_name {
    char name[sizeof ".accepted-" + 2 * RANDOM_BYTES];
} random_name;

static bool choose_name(random_name *name) {
    unsigned long long random;
    bool is_chosen = getrandom(&random, sizeof random, 0) == sizeof random;
    snprintf(name->name, sizeof name->name, ".accepted-%016llx", random);
    return is_chosen;
}

/* Returns whether an open file is the one that was looked at. Else errno is ESTALE. */
static bool is_looked_at(int file, const struct stat *looked_at) {
    struct stat now;
    bool is_known = fstat(file, &now) == 0;
    bool is_same = is_known && now.st_dev == looked_at->st_dev && now.st_ino == looked_at->st_ino;
    errno = is_known && !is_same ? ESTALE : errno;
    return is_same;
}

/* Sets `access` to that of the file that takes the place of a target. One that may not be read is its owner's alone. */
static bool find_access(const target *target, mode_t permissions, access_rules *access) {
    set_new_access(access, permissions & NEW_FILE & ~new_file_mask());
    if (!S_ISREG(target->status.st_mode)) {
        return true;
    }
    int file = openat(target->folder, target->name, O_RDONLY | O_NOFOLLOW | O_NONBLOCK | O_NOCTTY | O_CLOEXEC);
    if (file < 0) {
        access->permissions = target->status.st_mode & OWN_FOLDER;
        return errno == EACCES;
    }
    return close_written(file, is_looked_at(file, &target->status) && read_access(file, access));
}

/* Writes a file beside a target, and gives it that name. Returns false with errno set if that fails; then no file is beside it. */
static bool write_beside(const target *target, piece bytes, mode_t permissions) {
    random_name beside;
    access_rules access;
    bool is_made = choose_name(&beside) && find_access(target, permissions, &access)
                   && write_new_file(target->folder, beside.name, &access, bytes);
    bool is_done = is_made && renameat(target->folder, beside.name, target->folder, target->name) == 0;
    int error = errno;
    if (is_made && !is_done) {
        unlinkat(target->folder, beside.name, 0);
    }
    errno = error;
    return is_done;
}

/* Returns whether nothing is in an open file that would be lost: a pipe, a device, or an empty file. Else errno says why. */
static bool can_be_written(int file) {
    struct stat now;
    bool is_known = fstat(file, &now) == 0;
    bool is_empty = is_known && (!S_ISREG(now.st_mode) || now.st_size == 0);
    errno = is_known && !is_empty ? ESTALE : errno;
    return is_empty;
}

/* Writes to a pipe or a device, or to what is open already, as a link of /proc says. No other link is followed. */
static bool write_onto(const target *target, piece bytes) {
    bool is_link = S_ISLNK(target->status.st_mode);
    int file = openat(target->folder, target->name, O_WRONLY | O_NOCTTY | O_CLOEXEC | (is_link ? 0 : O_NOFOLLOW));
    bool is_it = file >= 0 && (is_link || is_looked_at(file, &target->status));
    return file >= 0 && close_written(file, is_it && can_be_written(file) && write_bytes(file, bytes.bytes, bytes.length));
}

/* Writes to a file, while signals wait. */
static bool write_held(const target *target, piece bytes, mode_t permissions) {
    sigset_t before;
    hold_signals(&before);
    bool is_done = write_beside(target, bytes, permissions);
    int error = errno;
    release_signals(&before);
    errno = error;
    return is_done;
}

/* Returns whether nothing is there, or a file. */
static bool is_nothing_or_file(mode_t mode) { return mode == 0 || S_ISREG(mode); }

/* Returns whether what is at a place can have come there by this user: it is the user's, or what was there `before`. A new file of another
 * user may have the number of one that is gone. */
static bool is_own_or_same(const struct stat *now, const struct stat *before) {
    bool is_same = now->st_dev == before->st_dev && now->st_ino == before->st_ino && now->st_uid == before->st_uid;
    return is_same || now->st_uid == geteuid();
}

/* Returns whether a file has the permissions and the group of another one, or is that one. */
static bool is_used_as(const struct stat *now, const struct stat *before) {
    bool is_same = now->st_dev == before->st_dev && now->st_ino == before->st_ino;
    return is_same || (now->st_mode == before->st_mode && now->st_gid == before->st_gid);
}

/* Looks at a target again. Returns false with errno set if that fails: to ESTALE if what is there is of another kind by now, or is another
 * user's, who put it there since. A file that came where nothing was, or that others may use in another way than what was there, gives nothing
 * to the one that takes its place. */
static bool look_again(target *target) {
    struct stat now;
    bool is_there = fstatat(target->folder, target->name, &now, AT_SYMLINK_NOFOLLOW) == 0;
    if (!is_there && errno != ENOENT) {
        return false;
    }
    mode_t mode = is_there ? now.st_mode : 0, before = target->status.st_mode;
    bool is_of_that_kind = is_nothing_or_file(before) ? is_nothing_or_file(mode) : (mode & S_IFMT) == (before & S_IFMT);
    bool is_well = is_of_that_kind && (!is_there || is_own_or_same(&now, &target->status));
    if (is_well) {
        target->status = is_there && before != 0 && is_used_as(&now, &target->status) ? now : (struct stat){0};
    }
    errno = is_well ? errno : ESTALE;
    return is_well;
}

bool replace_target(target *target, piece bytes, mode_t permissions) {
    if (!look_again(target)) {
        return false;
    }
    bool is_file = is_nothing_or_file(target->status.st_mode);
    return is_file ? write_held(target, bytes, permissions) : write_onto(target, bytes);
}
