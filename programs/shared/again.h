/* The marks of a session that goes on, in a file of the folder for temporary files: another run takes them up if this one is killed. */
#ifndef AGAIN_H
#define AGAIN_H

#include "files.h"

#include <limits.h>

/* By what bytes are known, as far as they are known: what NOTHING is. */
enum { KNOWN_BY_NOTHING = 0 };

/* The file in which marks are kept. It is -1 if they are not. */
typedef struct kept_marks {
    int file;
    char path[PATH_MAX];
    uint64_t known; /* by what all that is shown is known */
    text kept;      /* what the file has */
} kept_marks;

/* Returns by what bytes are known that follow others, which are `known`. */
uint64_t known_by(uint64_t known, piece bytes);

/* Has marks be kept for a run whose paths are known by `name`, and all that is shown by `known`. If a run with these paths was killed, says
 * where its marks are, unless the user `has_marks`. If no file can be made, none is kept. */
kept_marks begin_marks(uint64_t name, uint64_t known, bool has_marks);

/* Keeps the marks of all files as they are now. */
void keep_now(kept_marks *marks, gabro_session *session);

/* Removes the file. */
void end_marks(kept_marks *marks);

/* Reads the file at `path`, in which marks were kept of what is `known`, into `lines`: a line of `0` and `1` for each file. Returns why that
 * failed, or NULL. */
const char *read_marks(const char *path, uint64_t known, text *lines);

/* Takes the next line off `lines`, and turns it into marks as the library has them. */
piece next_marks(piece *lines);

#endif
