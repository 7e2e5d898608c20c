/* Files of two folders, or two files, and what differs. */
#ifndef FOLDERS_H
#define FOLDERS_H

#include "found.h"

/* A file that differs. It owns its path as it is shown. */
typedef struct differing {
    const char *path; /* below the two folders */
    text shown;
    found old, new;
    change change;
} differing;

/* Paths, each of which it owns. */
typedef struct paths {
    char **at;
    size_t count, room;
} paths;

/* Two folders. `paths` are those of all files in them, in order, each once. */
typedef struct folders {
    below left, right;
    paths paths;
    differing *files;
    size_t differ;
} folders;

/* The beginning of the name of a folder for what comes, and the number of random digits behind it. */
#define SPARE ".choosing-"
enum { SPARE_DIGITS = 16 };

/* Has `file` show how `file->old` becomes `file->new`, which were read. Returns false if there is no memory for that. */
bool show_difference(differing *file);

void free_difference(differing *file);

/* Orders paths as `folders->paths` is ordered. */
int compare_paths(const void *one, const void *other);

/* Finds what differs between two folders that are open. Says of files that are left out why. If it fails, sets `path` to where, which
 * the caller frees, and returns false with errno set. */
bool read_folders(folders *folders, char **path);

void free_folders(folders *folders);

#endif
