/* Changes that another program hands in as records, and what it gets back: the man page of scm-select has their form. */
#ifndef HANDED_H
#define HANDED_H

#include "change.h"

enum { MOST_COMMITS = 2 };

/* The texts of a change that are shown: both paths, the note, and the words of both versions. */
enum { SHOWN_TEXTS = 5 };

/* A changed file with its marks: a character for each item, '1' if it is marked, or nothing. It owns the texts that are shown in another
 * form than they were handed in. */
typedef struct handed_change {
    change change;
    piece marks;
    piece file; /* the path, below the folder that was handed in, of the file that `E` opens, or nothing */
    text shown[SHOWN_TEXTS];
} handed_change;

/* What was handed in. Its pieces lie in the bytes that were read. */
typedef struct handed {
    bool is_read_only;
    bool is_all_marked;
    blanks blanks;
    piece folder; /* the whole path of the folder that the files of changes lie in, or nothing */
    piece messages[MOST_COMMITS];
    size_t commits;
    handed_change *changes;
    size_t count;
    size_t room;
} handed;

/* Reads `bytes` into `handed`, which is all zeros. Returns why that failed, or NULL. The caller frees it by `free_handed`. */
const char *read_handed(piece bytes, handed *handed);

void free_handed(handed *handed);

/* Opens a session over a state that has the messages that were handed in, and no files yet. Returns the code of the call that failed,
 * or GABRO_DONE. */
uint32_t open_commits(gabro_session *session, const handed *handed);

/* Sets the marks that were handed in, in the state that is made. Returns NULL, or which marks do not fit the items of their file. */
const char *mark_handed(gabro_session *session, const handed *handed);

/* Sets `into` to what was accepted: messages, and of each change the marks and both sides. Returns the code of the call that failed,
 * or GABRO_DONE. */
uint32_t write_accepted_sides(gabro_session *session, const handed *handed, text *into);

/* Sets `into` to the messages and the marks of a session that goes on: what is kept of it if the program is killed. Returns the code of the call
 * that failed, or GABRO_DONE. */
uint32_t write_marks(gabro_session *session, const handed *handed, text *into);

#endif
