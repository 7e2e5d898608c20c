/* The marks of a session that goes on, in the file to which what is accepted is written: another program takes them up if this one is killed. */
#ifndef KEPT_H
#define KEPT_H

#include "handed.h"
#include "target.h"

/* Where marks are kept. The file is -1 if they are not. */
typedef struct keeper {
    int file;
    const handed *handed;
    text kept; /* what the file has */
} keeper;

/* Keeps marks in the file that was found as `target`, if that is an empty file: what another one has is left alone until the user accepts. */
keeper begin_keeping(const target *target, const handed *handed);

/* Keeps the marks as they are now. `keeper` leads to a keeper: a run calls this where the user rests. */
void keep_on(void *keeper, gabro_session *session);

/* Empties the file again, and closes it. */
void end_keeping(keeper *keeper);

#endif
