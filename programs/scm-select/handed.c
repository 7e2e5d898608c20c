/* Changes that another program hands in as records, and what it gets back. No proof covers this file. */
#define _GNU_SOURCE
#include "handed.h"
#include "shown.h"

#include <stdio.h>
#include <stdlib.h>
#include <string.h>

enum { FIRST_CHANGES = 64, LONGEST_NUMBER = 19, EIGHT = 8, TEN = 10, LONGEST_HEAD = 64, LONGEST_WORDS = 4096 };

static const char NO_ROOM[] = "not enough memory", BAD_FORM[] = "it has no records of changes: see the man page";

/* A record: a word, the number of its bytes, and these. */
typedef struct record {
    piece word;
    piece bytes;
} record;

/* ---- Records that are read ---- */

static bool is_word(piece piece, const char *word) {
    return piece.length == strlen(word) && memcmp(piece.bytes, word, piece.length) == 0;
}

/* Sets `number` to the number that digits of `base` write. Returns false if they are none. */
static bool read_number(piece digits, size_t base, size_t *number) {
    *number = 0;
    for (size_t i = 0; i < digits.length; i++) {
        size_t digit = (size_t)(digits.bytes[i] - '0');
        if (digits.bytes[i] < '0' || digit >= base) {
            return false;
        }
        *number = *number * base + digit;
    }
    return digits.length > 0 && digits.length < LONGEST_NUMBER;
}

static piece skip(piece bytes, size_t count) { return (piece){bytes.bytes + count, bytes.length - count}; }

/* Takes what is before the next `end` off `rest`, with that end. Returns false if there is no such end. */
static bool take_up_to(piece *rest, char end, piece *taken) {
    const char *found = rest->length > 0 ? memchr(rest->bytes, end, rest->length) : NULL;
    if (found) {
        *taken = (piece){rest->bytes, (size_t)(found - rest->bytes)};
        *rest = skip(*rest, taken->length + 1);
    }
    return found;
}

/* Takes the next record off `rest`. Returns false if it is malformed. */
static bool take_record(piece *rest, record *record) {
    piece digits;
    size_t length;
    if (!take_up_to(rest, ' ', &record->word) || !take_up_to(rest, '\n', &digits) || !read_number(digits, TEN, &length)
        || length >= rest->length || rest->bytes[length] != '\n') {
        return false;
    }
    record->bytes = (piece){rest->bytes, length};
    *rest = skip(*rest, length + 1);
    return true;
}

/* Begins a changed file with its path. Returns false if there is no memory for it. */
static bool begin_change(handed *handed, piece path) {
    static const piece none = {"", 0};
    static const version absent = {GABRO_ABSENT, {"", 0}, {"", 0}};
    if (handed->count == handed->room) {
        size_t room = handed->room > 0 ? 2 * handed->room : FIRST_CHANGES;
        handed_change *larger = realloc(handed->changes, room * sizeof *larger);
        if (!larger) {
            return false;
        }
        handed->changes = larger;
        handed->room = room;
    }
    change begun = {.path = path, .old_path = none, .note = none, .old = absent, .new = absent};
    handed->changes[handed->count++] = (handed_change){.change = begun, .marks = none, .file = none};
    return true;
}

/* Follows a record of the last changed file. Returns false if it is none. */
static bool follow_part(handed_change *last, const record *record) {
    change *change = &last->change;
    struct { const char *word; piece *part; } parts[] = {
        {"old-path", &change->old_path}, {"note", &change->note}, {"old", &change->old.bytes}, {"new", &change->new.bytes},
        {"old-words", &change->old.words}, {"new-words", &change->new.words}, {"marks", &last->marks}, {"file", &last->file},
    };
    if (is_word(record->word, "old-mode") || is_word(record->word, "new-mode")) {
        return read_number(record->bytes, EIGHT, *record->word.bytes == 'o' ? &change->old.mode : &change->new.mode);
    }
    change->has_lines = change->has_lines || is_word(record->word, "old") || is_word(record->word, "new");
    for (size_t i = 0; i < sizeof parts / sizeof *parts; i++) {
        if (is_word(record->word, parts[i].word)) {
            *parts[i].part = record->bytes;
            return true;
        }
    }
    return false;
}

static bool is_whole_path(piece path) { return path.length > 0 && *path.bytes == '/'; }

/* Follows a record. Returns why that failed, or NULL. */
static const char *follow(handed *handed, const record *record) {
    if (is_word(record->word, "path")) {
        return begin_change(handed, record->bytes) ? NULL : NO_ROOM;
    }
    if (is_word(record->word, "message") && handed->commits < MOST_COMMITS) {
        handed->messages[handed->commits++] = record->bytes;
    } else if (is_word(record->word, "read-only")) {
        handed->is_read_only = true;
    } else if (is_word(record->word, "mark-all")) {
        handed->is_all_marked = true;
    } else if (is_word(record->word, "blanks-of-old") || is_word(record->word, "blanks-of-new")) {
        handed->blanks = is_word(record->word, "blanks-of-old") ? BLANKS_OF_OLD : BLANKS_OF_NEW;
    } else if (is_word(record->word, "folder") && is_whole_path(record->bytes)) {
        handed->folder = record->bytes;
    } else if (handed->count == 0 || !follow_part(&handed->changes[handed->count - 1], record)) {
        return BAD_FORM;
    }
    return NULL;
}

/* Has the texts of a change be as they are shown. */
static bool show_texts(handed_change *handed) {
    change *change = &handed->change;
    piece *const texts[SHOWN_TEXTS] = {&change->path, &change->old_path, &change->note, &change->old.words, &change->new.words};
    bool is_shown = true;
    for (size_t i = 0; i < SHOWN_TEXTS && is_shown; i++) {
        is_shown = show(texts[i], &handed->shown[i]);
    }
    return is_shown;
}

const char *read_handed(piece bytes, handed *handed) {
    const char *why = NULL;
    record record;
    while (bytes.length > 0 && !why) {
        why = take_record(&bytes, &record) ? follow(handed, &record) : BAD_FORM;
    }
    for (size_t i = 0; i < handed->count && !why; i++) {
        why = show_texts(&handed->changes[i]) ? NULL : NO_ROOM;
    }
    return why;
}

void free_handed(handed *handed) {
    for (size_t i = 0; i < handed->count * SHOWN_TEXTS; i++) {
        free(handed->changes[i / SHOWN_TEXTS].shown[i % SHOWN_TEXTS].bytes);
    }
    for (size_t i = 0; i < handed->count; i++) {
        free(handed->changes[i].change.lines.bytes);
    }
    free(handed->changes);
}

/* ---- To a session ---- */

uint32_t open_commits(gabro_session *session, const handed *handed) {
    uint32_t code = gabro_state_new(session, handed->is_read_only);
    for (size_t i = 0; i < handed->commits && code == GABRO_DONE; i++) {
        code = gabro_state_message(session, handed->messages[i].bytes, handed->messages[i].length);
    }
    return code;
}

/* Gives file `file` the marks that were handed in: '1' for each item that is marked. Returns whether they fit its items. */
static bool set_marks(gabro_session *session, size_t file, piece marks) {
    text bytes = {0};
    bool is_copied = append(&bytes, marks.bytes, marks.length);
    for (size_t i = 0; i < bytes.length; i++) {
        bytes.bytes[i] = bytes.bytes[i] == '1';
    }
    bool is_set = is_copied && gabro_state_marks(session, file, bytes.bytes, bytes.length) == GABRO_DONE;
    free(bytes.bytes);
    return is_set;
}

/* Returns what is said of marks of file `file` that do not fit its items. */
static const char *wrong_marks(gabro_session *session, size_t file, const handed_change *handed) {
    static char words[LONGEST_WORDS];
    size_t count = 0;
    char none;
    piece path = handed->change.path;
    if (gabro_marks(session, file, &none, 0, &count) == GABRO_DONE) {
        snprintf(words, sizeof words, "its %zu marks for %.*s do not fit the %zu items of that file", handed->marks.length, (int)path.length,
                 path.bytes, count);
    } else {
        snprintf(words, sizeof words, "its marks cannot be set");
    }
    return words;
}

const char *mark_handed(gabro_session *session, const handed *handed) {
    const char *why = NULL;
    for (size_t i = 0; i < handed->count && !why; i++) {
        const handed_change *change = &handed->changes[i];
        bool is_fit = change->marks.length == 0 || set_marks(session, i, change->marks);
        why = is_fit ? NULL : wrong_marks(session, i, change);
    }
    return why;
}

/* ---- Records that are written ---- */

static bool add_record(text *into, const char *word, piece bytes) {
    char head[LONGEST_HEAD];
    int length = snprintf(head, sizeof head, "%s %zu\n", word, bytes.length);
    return append(into, head, (size_t)length) && append(into, bytes.bytes, bytes.length) && append(into, "\n", 1);
}

/* Adds the mode of a side, unless the file does not exist on it. */
static bool add_mode(text *into, const char *word, size_t mode) {
    char digits[LONGEST_HEAD];
    return mode == GABRO_ABSENT || add_record(into, word, (piece){digits, (size_t)snprintf(digits, sizeof digits, "%zo", mode)});
}

/* Returns whether a version has the bytes of a side, which are lines. The bytes of a link are not handed in. */
static bool has_bytes_of(const version *version, const side *side) { return !is_link(version) && are_equal(side->bytes, version->bytes); }

/* Returns which version has the contents of a side, or NULL if none has. Contents that are no lines are those of one. */
static const char *word_for_contents(const change *change, const side *side) {
    bool is_new = side->has_lines ? has_bytes_of(&change->new, side) : side->is_new;
    bool is_old = side->has_lines ? has_bytes_of(&change->old, side) : !side->is_new;
    return is_new ? "new" : is_old ? "old" : NULL;
}

/* Adds the contents of a side: the version that has them, or its bytes. */
static bool add_contents(const change *change, const side *side, bool is_selected, text *into) {
    const char *word = word_for_contents(change, side);
    return word ? add_record(into, is_selected ? "selected-is" : "unselected-is", (piece){word, strlen(word)})
                : add_record(into, is_selected ? "selected" : "unselected", side->bytes);
}

/* Adds a side of file `file`: its mode at each of its paths, and its contents. */
static uint32_t add_side(gabro_session *session, const change *change, size_t file, bool is_selected, text *into) {
    text bytes = {0};
    side side;
    uint32_t code = read_side(session, file, change, is_selected, &bytes, &side);
    if (code == GABRO_DONE) {
        bool is_added = add_mode(into, is_selected ? "selected-mode" : "unselected-mode", side.mode)
                        && add_mode(into, is_selected ? "selected-old-path" : "unselected-old-path", side.old_path_mode)
                        && add_contents(change, &side, is_selected, into);
        code = is_added ? GABRO_DONE : GABRO_NO_MEMORY;
    }
    free(bytes.bytes);
    return code;
}

/* Adds the marks of file `file`: '1' for each item that is marked, and else '0'. */
static uint32_t add_marks(gabro_session *session, size_t file, text *into) {
    size_t count = 0;
    char none;
    uint32_t code = gabro_marks(session, file, &none, 0, &count);
    if (code != GABRO_DONE) {
        return code;
    }
    if (!append_words(into, "marks %zu\n", count) || !make_room(into, into->length + count + 1)) {
        return GABRO_NO_MEMORY;
    }
    char *marks = into->bytes + into->length;
    code = gabro_marks(session, file, marks, count + 1, &count);
    for (size_t i = 0; i < count && code == GABRO_DONE; i++) {
        marks[i] = marks[i] == 1 ? '1' : '0';
    }
    end_at(into, into->length + count);
    return code != GABRO_DONE ? code : append(into, "\n", 1) ? GABRO_DONE : GABRO_NO_MEMORY;
}

static uint32_t add_message(gabro_session *session, size_t commit, text *into) {
    text message = {0};
    size_t length = 0;
    uint32_t code = GABRO_DONE;
    do {
        bool has_room = make_room(&message, length);
        code = has_room ? gabro_message(session, commit, message.bytes, message.room, &length) : GABRO_NO_MEMORY;
    } while (code == GABRO_DONE && length > message.room);
    if (code == GABRO_DONE && !add_record(into, "message", (piece){message.bytes, length})) {
        code = GABRO_NO_MEMORY;
    }
    free(message.bytes);
    return code;
}

/* Begins records with one that has the word `first` and no bytes, and adds the messages. */
static uint32_t begin_records(gabro_session *session, const handed *handed, const char *first, text *into) {
    uint32_t code = add_record(into, first, (piece){"", 0}) ? GABRO_DONE : GABRO_NO_MEMORY;
    for (size_t i = 0; i < handed->commits && code == GABRO_DONE; i++) {
        code = add_message(session, i, into);
    }
    return code;
}

uint32_t write_marks(gabro_session *session, const handed *handed, text *into) {
    uint32_t code = begin_records(session, handed, "kept", into);
    for (size_t i = 0; i < handed->count && code == GABRO_DONE; i++) {
        code = add_marks(session, i, into);
    }
    return code;
}

uint32_t write_accepted_sides(gabro_session *session, const handed *handed, text *into) {
    uint32_t code = begin_records(session, handed, "accepted", into);
    for (size_t i = 0; i < handed->count && code == GABRO_DONE; i++) {
        code = add_marks(session, i, into);
        code = code == GABRO_DONE ? add_side(session, &handed->changes[i].change, i, true, into) : code;
        code = code == GABRO_DONE ? add_side(session, &handed->changes[i].change, i, false, into) : code;
    }
    return code;
}
