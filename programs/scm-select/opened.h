/* The file of a change, opened in the user's editor. */
#ifndef OPENED_H
#define OPENED_H

#include "handed.h"

/* The files that `E` opens, and what the marks were when the user had changed one. */
typedef struct opening {
    const handed *handed;
    int terminal;
    bool is_changed; /* a file has other bytes since the editor */
    text kept;       /* the messages and the marks then */
} opening;

/* Opens the file of change `file` in the user's editor at line `new_line`. If it has other bytes then, keeps the marks and ends the session.
 * `context` leads to an opening. Returns why no file was opened, or NULL. */
const char *open_in_editor(void *context, gabro_session *session, size_t file, size_t old_line, size_t new_line);

#endif
