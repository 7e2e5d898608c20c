/* What is chosen in a session that goes on, and whether that is what was chosen when its run began. */
#ifndef CHOSEN_H
#define CHOSEN_H

#include "files.h"

/* What was chosen when a run began. */
typedef struct chosen {
    text first;     /* all marks and messages */
    bool is_known;  /* there was memory for them */
    bool was_asked; /* the question before quitting was open after what was typed last */
} chosen;

/* Returns what is chosen in `session` now. The caller frees `first`. */
chosen begin_chosen(gabro_session *session);

/* Gives up if what was typed last opened the question before quitting, and all marks and messages are as they were when the run began: then
 * the question would ask about what nobody changed. */
void quit_if_unchanged(chosen *chosen, gabro_session *session);

#endif
