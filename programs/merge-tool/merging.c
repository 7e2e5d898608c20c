/* The merge of three versions of a file, as the library makes it. No proof covers this file. */
#define _GNU_SOURCE
#include "merging.h"
#include "shown.h"

#include <string.h>

/* The letters of records, the bytes before the text of one, and the mode of the file that is shown. */
enum { AGREED = ' ', OURS = 'o', BASE = 'b', THEIRS = 't', NUMBER = 8, HEAD = 1 + NUMBER, FILE_MODE = 0100644 };

/* The line ends that lines get which have none: each version has at most one. */
enum { LINE_ENDS = 3 };

/* The versions of a conflict, and for how many conflicts there is room at first. */
enum { VERSIONS = 3, FIRST_CONFLICTS = 64 };

/* ---- Records ---- */

/* The record of a line: where it comes from, and its text. `section` is the index of the section that shows it. */
typedef struct line {
    char letter;
    piece text;
    bool begins; /* it is the first line of its section */
    size_t section;
    size_t item; /* the index of its mark, if it is one of a conflict */
} line;

/* Records that are read one by one: those that are left, and the last one. */
typedef struct records {
    piece rest;
    line last;
    size_t items; /* how many items of conflicts came up to the last one, itself among them */
} records;

static records records_of(const merge *merge) {
    return (records){.rest = {merge->lines.bytes, merge->lines.length}, .last = {.section = GABRO_NO_INDEX}};
}

/* Takes the next record. Returns false if none is left. */
static bool take_line(records *records, line *line) {
    if (records->rest.length < HEAD) {
        return false;
    }
    const unsigned char *head = (const unsigned char *)records->rest.bytes;
    size_t length = 0;
    for (int i = NUMBER; i > 0; i--) {
        length = length << 8 | head[i];
    }
    char letter = records->rest.bytes[0];
    bool begins = letter != records->last.letter, is_item = letter != AGREED;
    *line = (struct line){letter, {records->rest.bytes + HEAD, length}, begins, records->last.section + begins, records->items};
    records->rest = (piece){records->rest.bytes + HEAD + length, records->rest.length - HEAD - length};
    records->last = *line;
    records->items += is_item;
    return true;
}

/* ---- What the library makes of the versions ---- */

/* Returns how many lines a text has at most. */
static size_t count_lines(const text *text) {
    size_t count = 1;
    const char *at = text->bytes, *end = text->bytes + text->length;
    while (at < end && (at = memchr(at, '\n', (size_t)(end - at)))) {
        at++;
        count++;
    }
    return count;
}

/* Returns a guess of how many bytes the records of the lines have: those of the longest version, and a quarter more for conflicts. */
static size_t room_for_records(const merge *merge) {
    const text *const versions[VERSIONS] = {&merge->base, &merge->ours, &merge->theirs};
    size_t most = 0;
    for (size_t i = 0; i < VERSIONS; i++) {
        size_t bytes = versions[i]->length + HEAD * count_lines(versions[i]);
        most = bytes > most ? bytes : most;
    }
    return FIRST_ROOM + most + most / 4;
}

/* Reads the records of the lines. The merge is made anew if they do not fit into the room. */
static uint32_t read_lines(merge *merge) {
    const text *base = &merge->base, *ours = &merge->ours, *theirs = &merge->theirs;
    size_t length = room_for_records(merge);
    uint32_t code = GABRO_NO_MEMORY;
    do {
        if (!make_room(&merge->lines, length)) {
            return GABRO_NO_MEMORY;
        }
        code = gabro_merge_texts(base->bytes, base->length, ours->bytes, ours->length, theirs->bytes, theirs->length,
                               merge->lines.bytes, merge->lines.room, &length);
    } while (code == GABRO_DONE && length > merge->lines.room);
    end_at(&merge->lines, code == GABRO_DONE ? length : 0);
    return code;
}

/* Begins a conflict with the first of its lines. Returns false if there is no memory for it. */
static bool begin_conflict(merge *merge, const line *line) {
    if (merge->conflicts == merge->room) {
        size_t room = merge->room > 0 ? 2 * merge->room : FIRST_CONFLICTS;
        conflict *larger = realloc(merge->found, room * sizeof *larger);
        if (!larger) {
            return false;
        }
        merge->found = larger;
        merge->room = room;
    }
    merge->found[merge->conflicts++] = (conflict){.section = line->section, .ours = line->item};
    return true;
}

/* Adds a line of a conflict, with nothing chosen: the base's lines are removed, unless they are taken. Returns false if there is no memory for
 * it. */
static bool add_item(merge *merge, const line *line) {
    if (line->begins && line->letter == OURS && !begin_conflict(merge, line)) {
        return false;
    }
    conflict *last = &merge->found[merge->conflicts - 1];
    if (line->begins && line->letter != OURS) {
        *(line->letter == BASE ? &last->base : &last->theirs) = line->item;
    }
    last->end = line->item + 1;
    return append(&merge->marks, line->letter == BASE ? "\1" : "\0", 1);
}

uint32_t find_conflicts(merge *merge) {
    uint32_t code = read_lines(merge);
    records records = records_of(merge);
    line line;
    while (code == GABRO_DONE && take_line(&records, &line)) {
        code = line.letter == AGREED || add_item(merge, &line) ? GABRO_DONE : GABRO_NO_MEMORY;
    }
    return code;
}

void free_merge(merge *merge) {
    text *const texts[] = {&merge->base, &merge->ours, &merge->theirs, &merge->lines, &merge->marks};
    for (size_t i = 0; i < sizeof texts / sizeof *texts; i++) {
        free(texts[i]->bytes);
    }
    free(merge->found);
}

uint32_t count_open(const merge *merge, size_t *open) {
    const text *base = &merge->base, *ours = &merge->ours, *theirs = &merge->theirs;
    return gabro_open_conflicts(base->bytes, base->length, ours->bytes, ours->length, theirs->bytes, theirs->length,
                              merge->marks.bytes, merge->marks.length, open);
}

uint32_t read_merged(const merge *merge, text *into) {
    const text *base = &merge->base, *ours = &merge->ours, *theirs = &merge->theirs;
    size_t length = 0;
    if (!make_room(into, base->length + ours->length + theirs->length + LINE_ENDS)) {
        return GABRO_NO_MEMORY;
    }
    uint32_t code = gabro_merged_bytes(base->bytes, base->length, ours->bytes, ours->length, theirs->bytes, theirs->length,
                                     merge->marks.bytes, merge->marks.length, into->bytes, into->room, &length);
    end_at(into, code == GABRO_DONE ? length : 0);
    return code;
}

uint32_t read_with_markers(const merge *merge, const labels *labels, size_t marker_length, text *into) {
    const text *base = &merge->base, *ours = &merge->ours, *theirs = &merge->theirs;
    size_t length = base->length + ours->length + theirs->length + FIRST_ROOM;
    uint32_t code = GABRO_NO_MEMORY;
    do {
        if (!make_room(into, length)) {
            return GABRO_NO_MEMORY;
        }
        code = gabro_marked_bytes(base->bytes, base->length, ours->bytes, ours->length, theirs->bytes, theirs->length, merge->marks.bytes,
                                merge->marks.length, labels->base.bytes, labels->base.length, labels->ours.bytes, labels->ours.length,
                                labels->theirs.bytes, labels->theirs.length, marker_length, into->bytes, into->room, &length);
    } while (code == GABRO_DONE && length > into->room);
    end_at(into, code == GABRO_DONE ? length : 0);
    return code;
}

/* ---- The session ---- */

/* Adds a line to the state, after the line `before`. */
static uint32_t show_line(gabro_session *session, const line *line, char before, const merge *merge) {
    bool is_changed = line->letter != AGREED, is_split = is_changed && line->begins && before != AGREED && before != 0;
    uint32_t code = is_split ? gabro_state_section(session, true) : GABRO_DONE;
    if (code == GABRO_DONE) {
        bool is_checked = is_changed && merge->marks.bytes[line->item];
        code = gabro_state_line(session, is_changed, line->letter != BASE, is_checked, line->text.bytes, line->text.length);
    }
    return code;
}

uint32_t show_merge(gabro_session *session, piece title, const merge *merge) {
    uint32_t code = gabro_state_new(session, false);
    if (code == GABRO_DONE) {
        code = gabro_state_file(session, title.bytes, title.length, "", 0, FILE_MODE);
    }
    records records = records_of(merge);
    line line;
    for (char before = 0; code == GABRO_DONE && take_line(&records, &line); before = line.letter) {
        code = show_line(session, &line, before, merge);
    }
    return code;
}

/* Returns the version to which the lines of a conflict belong. */
static const char *version_of(char letter) { return letter == OURS ? "ours" : letter == BASE ? "base" : "theirs"; }

/* Returns the label of that version. */
static piece label_of(char letter, const labels *labels) {
    return letter == OURS ? labels->ours : letter == BASE ? labels->base : labels->theirs;
}

/* Adds the words for a section of a conflict: the version, which one of all the conflict is, and in brackets the version's label as it is
 * shown, if there is one. The version comes first, so that a narrow terminal shows it. */
static bool add_words_for(text *into, size_t conflict, size_t all, char letter, piece label) {
    text made = {0};
    bool is_added = append_words(into, "%s %zu/%zu", version_of(letter), conflict, all) && show(&label, &made);
    if (is_added && label.length > 0) {
        is_added = append(into, " (", 2) && append(into, label.bytes, label.length) && append(into, ")", 1);
    }
    free(made.bytes);
    return is_added;
}

uint32_t label_conflicts(gabro_session *session, const merge *merge, const labels *labels) {
    uint32_t code = GABRO_DONE;
    size_t conflict = 0; /* counted from 1 */
    text words = {0};
    records records = records_of(merge);
    line line;
    while (code == GABRO_DONE && take_line(&records, &line)) {
        conflict += line.begins && line.letter == OURS;
        if (line.begins && line.letter != AGREED) {
            words.length = 0;
            bool is_made = add_words_for(&words, conflict, merge->conflicts, line.letter, label_of(line.letter, labels));
            code = is_made ? gabro_label(session, 0, line.section, words.bytes, words.length) : GABRO_NO_MEMORY;
        }
    }
    free(words.bytes);
    return code;
}

bool is_open(const merge *merge, const conflict *conflict) {
    for (size_t i = conflict->ours; i < conflict->end; i++) {
        bool is_of_base = conflict->base <= i && i < conflict->theirs;
        if (is_of_base != (merge->marks.bytes[i] != 0)) {
            return false;
        }
    }
    return true;
}

size_t open_by_marks(const merge *merge) {
    size_t open = 0;
    for (size_t i = 0; i < merge->conflicts; i++) {
        open += is_open(merge, &merge->found[i]);
    }
    return open;
}

/* Returns whether a conflict is behind a section, or before it. */
static bool is_beyond(const conflict *conflict, size_t section, bool is_forward) {
    return is_forward ? section != GABRO_NO_INDEX && conflict->section > section : conflict->section + VERSIONS - 1 < section;
}

gabro_key next_open(const merge *merge, size_t section, bool is_forward) {
    const conflict *next = NULL;
    bool is_next_beyond = false;
    for (size_t i = 0; i < merge->conflicts; i++) {
        const conflict *conflict = &merge->found[is_forward ? i : merge->conflicts - 1 - i];
        bool beyond = is_beyond(conflict, section, is_forward);
        if ((!next || (beyond && !is_next_beyond)) && is_open(merge, conflict)) {
            next = conflict;
            is_next_beyond = beyond;
        }
    }
    return next ? (gabro_key){0, 0, next->section, GABRO_NO_INDEX} : (gabro_key){GABRO_NO_INDEX, GABRO_NO_INDEX, GABRO_NO_INDEX, GABRO_NO_INDEX};
}

uint32_t keep_marks(gabro_session *session, merge *merge) {
    size_t count = 0;
    uint32_t code = gabro_marks(session, 0, merge->marks.bytes, merge->marks.length, &count);
    /* the session shows the items of the merge and no others */
    return code == GABRO_DONE && count != merge->marks.length ? GABRO_NO_ITEM : code;
}
