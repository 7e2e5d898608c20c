/* Folders below one that is opened once. No proof covers this file. */
#define _GNU_SOURCE
#include "below.h"
#include "target.h"

#include <string.h>
#include <sys/syscall.h>

enum { FOLDER = O_DIRECTORY | O_CLOEXEC };

/* How the kernel opens a path of several folders (openat2). */
typedef struct how {
    uint64_t flags, mode, resolve;
} how;
enum { NO_LINKS = 4 /* RESOLVE_NO_SYMLINKS */ };

/* Opens a folder below another one by one call of the kernel. Returns -1 with errno set if that fails, and if it has no such call. */
static int open_at_once(int from, const char *path) {
#ifdef SYS_openat2
    how how = {.flags = O_PATH | FOLDER, .resolve = NO_LINKS};
    int folder = (int)syscall(SYS_openat2, from, path, &how, sizeof how);
#else
    int folder = -1;
    errno = ENOSYS;
#endif
    errno = folder < 0 && errno == ELOOP ? ENOTDIR : errno;
    return folder;
}

/* Returns whether the kernel has that call. */
static bool opens_at_once(int top) {
    int folder = open_at_once(top, ".");
    if (folder >= 0) {
        close(folder);
    }
    return folder >= 0;
}

bool open_top(below *below, const char *path) {
    *below = (struct below){.top = open_named_folder(path), .last = -1};
    below->has_single_steps = below->top >= 0 && !opens_at_once(below->top);
    return below->top >= 0;
}

void forget_last(below *below) {
    if (below->last >= 0) {
        close(below->last);
    }
    below->last = -1;
}

void close_top(below *below) {
    forget_last(below);
    if (below->top >= 0) {
        close(below->top);
    }
    free(below->path.bytes);
    *below = (struct below)NOT_OPEN;
}

/* ---- Steps ---- */

/* Returns how many bytes of a path name the folder that was opened last, or 0 if the path does not lead to it. */
static size_t known_part(const below *below, const char *path, size_t length) {
    size_t known = below->path.length;
    bool is_there = below->last >= 0 && known <= length && !memcmp(path, below->path.bytes, known);
    return is_there && (known == length || path[known] == '/') ? known : 0;
}

/* Keeps the first `length` bytes of a path. */
static bool keep_path(below *below, const char *path, size_t length) {
    end_at(&below->path, 0);
    return append(&below->path, path, length);
}

/* Returns the end of what one call opens of a path: as many folders as it takes, or one. */
static char *end_of_step(char *path, bool is_single) {
    size_t length = is_single ? 0 : strnlen(path, PATH_MAX);
    char *end = length == PATH_MAX ? memrchr(path, '/', PATH_MAX - 1) : length > 0 ? path + length : NULL;
    return end ? end : strchrnul(path, '/');
}

/* A step along a path: it opens the folder `name` in `from`, whose path has `length` bytes. */
typedef struct step {
    int from;
    const char *name;
    size_t length;
} step;

static int open_step(const below *below, const step *step) {
    return below->has_single_steps ? openat(step->from, step->name, O_PATH | O_NOFOLLOW | FOLDER) : open_at_once(step->from, step->name);
}

/* Takes a step, and makes the folder if it is not there, if there is a `make` for it. Closes `from` unless it is the top. */
static int take(const below *below, const step *step, const maker *make) {
    int next = open_step(below, step);
    if (next < 0 && errno == ENOENT && make && make->make(make->with, step->from, step->name, step->length)) {
        next = open_step(below, step);
    }
    int error = errno;
    if (step->from != below->top) {
        close(step->from);
    }
    errno = error;
    return next;
}

/* Opens the folder at what is kept of a path from `rest` on. */
static int walk(const below *below, int folder, char *rest, const maker *make) {
    while (folder >= 0 && *rest) {
        char *end = end_of_step(rest, make || below->has_single_steps), cut = *end;
        *end = 0;
        step step = {folder, rest, (size_t)(end - below->path.bytes)};
        folder = take(below, &step, make);
        *end = cut;
        rest = cut ? end + 1 : end;
    }
    return folder;
}

/* Returns the folder at the first `length` bytes of a path, and makes it and those around it if there is a `make`. */
static int reach(below *below, const char *path, size_t length, const maker *make) {
    size_t known = known_part(below, path, length);
    if (known == 0) {
        forget_last(below);
    }
    if (!keep_path(below, path, length)) {
        forget_last(below);
        errno = ENOMEM;
        return -1;
    }
    char *rest = below->path.bytes + (known > 0 && known < length ? known + 1 : known);
    return below->last = walk(below, known > 0 ? below->last : below->top, rest, make);
}

/* ---- Folders and places ---- */

int folder_below(below *below, const char *path, size_t length) {
    return length == 0 ? below->top : reach(below, path, length, NULL);
}

bool make_folder_below(below *below, const char *path, size_t length, const maker *make) {
    size_t there = length;
    int folder = folder_below(below, path, there);
    /* up to the deepest one that is there, and on from it */
    while (folder < 0 && errno == ENOENT && there > 0) {
        const char *slash = memrchr(path, '/', there);
        there = slash ? (size_t)(slash - path) : 0;
        folder = folder_below(below, path, there);
    }
    return folder >= 0 && (there == length || reach(below, path, length, make) >= 0);
}

bool find_place(below *below, const char *path, place *place) {
    const char *slash = strrchr(path, '/');
    place->folder = folder_below(below, path, slash ? (size_t)(slash - path) : 0);
    place->name = slash ? slash + 1 : path;
    return place->folder >= 0;
}

bool is_nowhere(int error) { return error == ENOENT || error == ENOTDIR || error == ELOOP; }

bool is_same_folder(int one, int other) {
    struct stat first, second;
    return fstat(one, &first) == 0 && fstat(other, &second) == 0 && first.st_dev == second.st_dev && first.st_ino == second.st_ino;
}

bool lies_in(int inner, int outer) {
    int folder = openat(inner, ".", O_PATH | FOLDER);
    bool is_in = false, is_root = folder < 0;
    while (!is_in && !is_root) {
        int around = openat(folder, "..", O_PATH | FOLDER);
        is_root = around < 0 || is_same_folder(folder, around);
        is_in = !is_root && is_same_folder(around, outer);
        close(folder);
        folder = around;
    }
    if (folder >= 0) {
        close(folder);
    }
    return is_in;
}
