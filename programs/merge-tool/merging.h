/* The merge of three versions of a file, as the library makes it: its conflicts, and what is chosen of them. */
#ifndef MERGING_H
#define MERGING_H

#include "files.h"

/* A conflict. Its lines are shown by three sections, of which `section` is the index of the first, and have the marks `ours` up to `end`:
 * those of the base begin at `base`, and those of theirs at `theirs`. */
typedef struct conflict {
    size_t section;
    size_t ours, base, theirs, end;
} conflict;

/* A merge. Its three versions are those of one file, of which `ours` and `theirs` came from `base`. */
typedef struct merge {
    text base, ours, theirs;
    text lines;       /* a record for each line, as gabro_merge_texts writes them */
    text marks;       /* a byte for each item of a conflict, 1 if it is checked */
    conflict *found;  /* the conflicts, in order */
    size_t conflicts; /* how many conflicts there are */
    size_t room;      /* for how many `found` has room */
} merge;

/* Finds the conflicts of the three versions. Nothing is chosen of them. Returns the code of the call that failed, or GABRO_DONE. */
uint32_t find_conflicts(merge *merge);

void free_merge(merge *merge);

/* Makes a state that shows the merge with its marks, as a file with the title `title`. Returns the code of the call that failed, or
 * GABRO_DONE. */
uint32_t show_merge(gabro_session *session, piece title, const merge *merge);

/* Labels of the three versions, as names of branches. An empty one is none. */
typedef struct labels {
    piece base, ours, theirs;
} labels;

/* Has the layer of a session that shows the merge name the version and the conflict of each section, with the label of the version behind
 * them, in place of the section's number: "ours 1/2 (main)". Returns the code of the call that failed, or GABRO_DONE. */
uint32_t label_conflicts(gabro_session *session, const merge *merge, const labels *labels);

/* Returns whether the marks of the merge leave a conflict open. */
bool is_open(const merge *merge, const conflict *conflict);

/* Returns how many conflicts the marks of the merge leave open. */
size_t open_by_marks(const merge *merge);

/* Returns the key of the first section of the next open conflict behind section `section` (or before it, unless `is_forward`), from the
 * other end on if there is none; or of no item if no conflict is open. GABRO_NO_INDEX is before the first section and behind the last. */
gabro_key next_open(const merge *merge, size_t section, bool is_forward);

/* Keeps the marks of a session that shows the merge. Returns the code of the call that failed, or GABRO_DONE. */
uint32_t keep_marks(gabro_session *session, merge *merge);

/* Sets `open` to how many conflicts the marks leave open. Returns the code of the call that failed, or GABRO_DONE. */
uint32_t count_open(const merge *merge, size_t *open);

/* Sets `into` to the bytes of the merge by its marks. Returns the code of the call that failed, or GABRO_DONE. */
uint32_t read_merged(const merge *merge, text *into);

/* Sets `into` to the same, with conflict markers of at least `marker_length` signs around the versions of each conflict that is open. Returns the code of the call that
 * failed, or GABRO_DONE. */
uint32_t read_with_markers(const merge *merge, const labels *labels, size_t marker_length, text *into);

#endif
