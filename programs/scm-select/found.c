/* A version of a file: what was found at a path. No proof covers this file. */
#define _GNU_SOURCE
#include "found.h"
#include "shown.h"

#include <limits.h>
#include <stdio.h>
#include <string.h>

/* Adds a number of bytes, with a comma before each third digit. */
static bool add_size(text *into, size_t size) {
    char digits[32];
    int count = snprintf(digits, sizeof digits, "%zu", size);
    bool is_added = true;
    for (int i = 0; i < count && is_added; i++) {
        is_added = append(into, ",", i > 0 && (count - i) % 3 == 0) && append(into, digits + i, 1);
    }
    return is_added && append(into, " bytes", size == 1 ? 5 : 6);
}

/* Sets the mode and the bytes of a version that was read, and the words for it. */
static bool describe(found *found, size_t mode) {
    bool is_there = mode != GABRO_ABSENT;
    bool has_target = mode == LINK_MODE;
    bool is_made = append(&found->bytes, "", 0) && append(&found->words, "", 0);
    is_made = is_made && (!has_target || (append(&found->words, "link to ", 8) && add_shown(&found->words, found->bytes.bytes)));
    is_made = is_made && (has_target || !is_there || add_size(&found->words, found->bytes.length));
    found->version = (version){mode, {found->bytes.bytes, found->bytes.length}, {found->words.bytes, found->words.length}};
    return is_made;
}

bool read_contents(const char *path, found *found, mode_t *permissions) {
    return read_source(path, &found->bytes, permissions) && describe(found, FILE_MODE);
}

static bool read_target(place at, text *into) {
    char target[PATH_MAX];
    ssize_t length = readlinkat(at.folder, at.name, target, sizeof target);
    return length >= 0 && append(into, target, (size_t)length);
}

static bool is_same_file(const struct stat *one, const struct stat *other) {
    return one->st_dev == other->st_dev && one->st_ino == other->st_ino && (one->st_mode & S_IFMT) == (other->st_mode & S_IFMT);
}

/* Opens the file that was looked at. Returns -1 with errno set, to ESTALE if another one came there since: it waits for no pipe. */
static int open_looked_at(place at, const struct stat *looked_at) {
    struct stat now;
    int file = openat(at.folder, at.name, O_RDONLY | O_NOFOLLOW | O_NONBLOCK | O_NOCTTY | O_CLOEXEC);
    if (file < 0) {
        errno = errno == ELOOP || errno == ENXIO ? ESTALE : errno;
    } else if (fstat(file, &now) != 0 || !is_same_file(&now, looked_at)) {
        close(file);
        file = -1;
        errno = ESTALE;
    }
    return file;
}

/* Opens a file to be read, and finds what a file that is made of it may give. */
static int open_source(place at, found *found) {
    int file = open_looked_at(at, &found->status);
    found->given = ALL;
    if (file >= 0) {
        limit_permissions(file, &found->given);
    }
    return file;
}

/* Reads a file or a link that was looked at. */
static bool read_place(place at, found *found, bool *is_file) {
    mode_t mode = found->status.st_mode;
    if (S_ISLNK(mode)) {
        return read_target(at, &found->bytes) && describe(found, LINK_MODE);
    }
    *is_file = S_ISREG(mode);
    return !*is_file
           || (read_and_close(open_source(at, found), &found->bytes)
               && describe(found, (mode & S_IXUSR) ? PROGRAM_MODE : FILE_MODE));
}

/* Looks at what is at a path. If that is nothing, or a folder, `status` has zeros alone. Returns false with errno set if that fails. */
static bool look_at(below *below, const char *path, place *at, struct stat *status) {
    bool is_there = find_place(below, path, at) && fstatat(at->folder, at->name, status, AT_SYMLINK_NOFOLLOW) == 0;
    bool is_known = is_there || is_nowhere(errno);
    if (!is_there || S_ISDIR(status->st_mode)) {
        memset(status, 0, sizeof *status);
    }
    return is_known;
}

bool read_found(below *below, const char *path, found *found, bool *is_file) {
    place at;
    *is_file = true;
    if (!look_at(below, path, &at, &found->status)) {
        return false;
    }
    return found->status.st_mode == 0 ? describe(found, GABRO_ABSENT) : read_place(at, found, is_file);
}

int open_found(below *below, const char *path, const found *found) {
    place at;
    return find_place(below, path, &at) ? open_looked_at(at, &found->status) : -1;
}

static bool is_same_time(struct timespec one, struct timespec other) { return one.tv_sec == other.tv_sec && one.tv_nsec == other.tv_nsec; }

same compare_found(below *below, const char *path, const found *found) {
    place at;
    struct stat now;
    const struct stat *then = &found->status;
    if (!look_at(below, path, &at, &now) || !is_same_file(&now, then) || now.st_mode != then->st_mode || now.st_uid != then->st_uid
        || now.st_gid != then->st_gid || now.st_size != then->st_size) {
        return IS_OTHER;
    }
    bool is_as_it_was = is_same_time(now.st_mtim, then->st_mtim) && is_same_time(now.st_ctim, then->st_ctim);
    return is_as_it_was ? IS_SAME : MAY_BE_SAME;
}

void free_found(found *found) {
    free(found->bytes.bytes);
    free(found->words.bytes);
}
