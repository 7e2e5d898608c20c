/* A version of a file: what was found at a path. */
#ifndef FOUND_H
#define FOUND_H

#include "below.h"
#include "change.h"

#include <sys/stat.h>

/* The modes of versions that are there. */
enum { FILE_MODE = 0100644, PROGRAM_MODE = 0100755, LINK_MODE = 0120000 };

/* A version of a file that was read. It owns its bytes, and the words that describe them. */
typedef struct found {
    version version;
    text bytes;
    text words;
    struct stat status; /* of the file or the link; all zeros if it is not there */
    mode_t given;       /* the most permissions of a file that is made of it */
} found;

/* Reads a file that is compared by its contents alone, and leaves of `permissions` those of a file that is made of it. Returns false with
 * errno set if that fails. */
bool read_contents(const char *path, found *found, mode_t *permissions);

/* Reads what is at `path` below a folder, also if nothing is. Sets `is_file` to whether it is a file, a link or nothing. Follows no link,
 * and waits for no pipe. Returns false with errno set if that fails. */
bool read_found(below *below, const char *path, found *found, bool *is_file);

/* Opens the file that was found at `path`, if it is one. Returns -1 with errno set if that fails: to ESTALE if another one is there. */
int open_found(below *below, const char *path, const found *found);

/* What was found at a path: it is there, perhaps with bytes that were written meanwhile, or it is another file or has another access. */
typedef enum same { IS_SAME, MAY_BE_SAME, IS_OTHER } same;

/* Compares what is at `path` below a folder with what was found there. Bytes are not read: if the system noted a write, or another number
 * of names, it may be the same. */
same compare_found(below *below, const char *path, const found *found);

void free_found(found *found);

#endif
