/* The right folder of two, as the user wants it. */
#ifndef WRITTEN_H
#define WRITTEN_H

#include "folders.h"

/* How writing a folder ended. */
enum { WRITTEN, NOTHING_WRITTEN, HALF_WRITTEN };

/* Where and why writing failed. The caller frees `path`. */
typedef struct failure {
    char *path;
    const char *why;
} failure;

/* Has the right folder hold the selected side of each file, in a session whose changes are accepted. If that fails, sets `failure`. Says
 * what of its own it could not remove. Returns WRITTEN to HALF_WRITTEN. */
int write_right(gabro_session *session, folders *folders, failure *failure);

#endif
