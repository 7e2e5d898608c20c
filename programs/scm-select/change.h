/* A changed file: two versions of it as a file of a state, and its sides as versions. */
#ifndef CHANGE_H
#define CHANGE_H

#include "files.h"

/* A version of a file. If it does not exist, its mode is GABRO_ABSENT, and it has no bytes. */
typedef struct version {
    size_t mode;
    piece bytes;
    piece words; /* describe contents that are no text, as "link to TARGET" or "12 bytes" */
} version;

/* Which changes of a file are shown: all, or not those of lines that differ by blanks alone, which are as the old or as the new version has them. */
typedef enum blanks { ALL_CHANGES, BLANKS_OF_OLD, BLANKS_OF_NEW } blanks;

/* A changed file. Its paths are as the user is to see them. */
typedef struct change {
    piece path;
    piece old_path; /* before a rename, or empty */
    piece note;     /* more words behind the path, or empty */
    version old, new;
    bool has_lines; /* its contents are shown by lines */
    bool has_modes; /* each change of a mode is an item of its own, as a state tells it */
    blanks blanks;
    text lines;      /* the bytes that are shown of the version that gives way, if changes of blanks are left out */
    size_t left_out; /* how many lines are not as that version has them */
} change;

/* A side of a changed file, as a tree has it. Its contents are lines if `has_lines`. Else they are those of the new version if `is_new`,
 * or of the old one. */
typedef struct side {
    size_t mode;          /* at the file's path, or GABRO_ABSENT */
    size_t old_path_mode; /* at the path before a rename, or GABRO_ABSENT */
    piece bytes;
    bool has_lines;
    bool is_new;
} side;

/* Returns whether two pieces have the same bytes. */
bool are_equal(piece one, piece other);

/* Returns whether a version is a link. */
bool is_link(const version *version);

/* Returns whether two versions have the same mode and bytes. */
bool is_same(const version *one, const version *other);

/* Decides whether the contents of a change are shown by lines: a version is a file, and no file has a NUL. */
void look_into(change *change);

/* Has each change of a mode be an item of its own. A text in the place of a link, or a link in that of a text, has no lines then. */
void show_modes(change *change);

/* Has the lines of a change that differ by blanks alone be as one of its versions has them, so that they are no items. Returns the code of the
 * call. The caller frees `change->lines.bytes`. */
uint32_t leave_out_blanks(change *change, blanks blanks);

/* Adds a change to the state of `session`. Behind its path it says what the file is, how many lines come and go, and how many
 * are left out. If a line is too long, the contents are one item, and `change->has_lines` says so. Returns the code of the call. */
uint32_t add_change(gabro_session *session, change *change);

/* Has the layer say of file `file`, counted from 0, which shows `change`, where it comes from: on the row of its path, in place of a mode
 * that does not change. Without a rename it does nothing. Returns the code of the call that failed, or GABRO_DONE. */
uint32_t label_rename(gabro_session *session, size_t file, const change *change);

/* Sets `side` to a side of file `file`, counted from 0, which shows `change`: to the selected one if `is_selected`. Its bytes lie
 * in `into`, or are those of a version of the change. Returns the code of the call. */
uint32_t read_side(gabro_session *session, size_t file, const change *change, bool is_selected, text *into, side *side);

#endif
