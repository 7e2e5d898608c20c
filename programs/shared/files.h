/* Bytes in memory and in files. */
#ifndef FILES_H
#define FILES_H

#include "access.h"
#include "bytes.h"
#include "target.h"

#include <signal.h>

/* Numbers of errno for what no call of the system says. */
enum { OF_ANOTHER = EPROTO, TOO_DEEP = E2BIG };

/* The name of the program, as it says it. */
#ifndef NAME
#define NAME "terminal"
#endif

/* What the program says of its build, in a line of its own, or nothing. */
#ifndef BUILD
#define BUILD ""
#endif

/* Bytes that another owns. */
typedef struct piece {
    const char *bytes;
    size_t length;
} piece;

/* Adds bytes at the end of a text. Returns false if memory for them fails; the text is as it was. */
bool append(text *text, const char *bytes, size_t length);

/* Adds words at the end of a text, in the form of printf. Returns false if memory for them fails. */
bool append_words(text *text, const char *form, ...) __attribute__((format(printf, 2, 3)));

/* Returns what errno says of a file that was read or is to be written. */
const char *reason(void);

/* Sets `into` to the bytes of the file at `path`, and leaves of `permissions` those of a file that is made of it, if it is no pipe or
 * device. Returns false with errno set if that fails. */
bool read_source(const char *path, text *into, mode_t *permissions);

/* Makes a new file `name` in an open folder, gives it its access, and waits until its bytes are on the disk. Returns false with errno
 * set if that fails, and then it is not there. */
bool write_new_file(int folder, const char *name, const access_rules *access, piece bytes);

/* Replaces a target that was found before. Returns false with errno set if that fails, to ESTALE if something of another kind, or of another
 * user, came there since; then the file is as it was: the bytes are written beside it first, and no signal comes between. It keeps its
 * access, and a new file has no others than `permissions`. What is no file (a pipe, a device) is written to. */
bool replace_target(target *target, piece bytes, mode_t permissions);

/* Holds back all signals but those by which the program itself fails, and that of a file that is too large, which is an error of the write
 * then. */
void hold_signals(sigset_t *before);

void release_signals(const sigset_t *before);

/* Returns whether a signal that ends the program was held back. */
bool is_asked_to_end(void);

#endif
