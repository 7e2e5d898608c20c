/* A changed file: two versions of it as a file of a state, and its sides as versions. No proof covers this file. */
#define _GNU_SOURCE
#include "change.h"

#include <stdlib.h>
#include <string.h>

/* The bits of a mode that say what kind of file it is, and those of a link. */
enum { KIND = 0170000, LINK = 0120000, TEXT = 0100644 };

/* A no-break space, which no path has as it is shown, is between a path and what the file is. */
#define AFTER_PATH "\xc2\xa0"

bool is_link(const version *version) { return version->mode != GABRO_ABSENT && (version->mode & KIND) == LINK; }

bool are_equal(piece one, piece other) {
    return one.length == other.length && (one.length == 0 || memcmp(one.bytes, other.bytes, one.length) == 0);
}

bool is_same(const version *one, const version *other) { return one->mode == other->mode && are_equal(one->bytes, other->bytes); }

static bool is_absent(const version *version) { return version->mode == GABRO_ABSENT; }

/* Returns whether a version is there, and no link. */
static bool is_file(const version *version) { return !is_absent(version) && !is_link(version); }

static bool has_nul(const version *version) {
    return is_file(version) && version->bytes.length > 0 && memchr(version->bytes.bytes, 0, version->bytes.length);
}

void look_into(change *change) {
    bool has_file = is_file(&change->old) || is_file(&change->new);
    change->has_lines = has_file && !has_nul(&change->old) && !has_nul(&change->new);
}

/* Returns whether one version is a link, and the other one a file. */
static bool is_link_and_file(const change *change) {
    return (is_link(&change->old) && is_file(&change->new)) || (is_file(&change->old) && is_link(&change->new));
}

void show_modes(change *change) {
    change->has_modes = true;
    change->has_lines = change->has_lines && !is_link_and_file(change);
}

/* Returns a change as the library decides how it is shown, and what a tree has of it. Its contents are one item with the mode if it has words
 * for the new ones, and the mode is no item of its own. */
static gabro_changed changed_of(const change *change) {
    bool has_words = !change->has_modes && change->new.words.length > 0;
    uint32_t shown = change->has_lines ? GABRO_BY_LINES : has_words ? GABRO_BY_ONE_ITEM : GABRO_BY_ITEMS;
    return (gabro_changed){change->old.mode, change->new.mode, shown, change->old_path.length > 0};
}

/* Returns what a state is to be given of a change. */
static gabro_shown shown_as(const change *change) {
    gabro_changed changed = changed_of(change);
    gabro_shown shown;
    /* bytes that were not handed in differ if the words for them do */
    bool is_other = !are_equal(change->old.bytes, change->new.bytes) || !are_equal(change->old.words, change->new.words);
    gabro_tree_shown(&changed, is_other, &shown);
    return shown;
}

/* Returns the bytes that are shown of a version. */
static piece shown_bytes(const change *change, const version *version) {
    bool gives_way = change->blanks != ALL_CHANGES && version == (change->blanks == BLANKS_OF_OLD ? &change->new : &change->old);
    return gives_way ? (piece){change->lines.bytes, change->lines.length} : version->bytes;
}

/* Returns the lines of a version that is shown with this mode: of no file there are none. So no link is ever made of a part of its
 * target. */
static piece lines_of(const change *change, const version *version, size_t mode) {
    return mode == GABRO_ABSENT ? (piece){"", 0} : shown_bytes(change, version);
}

/* ---- Changes of blanks ---- */

/* Reads `of` without its changes of blanks against `from`. */
static uint32_t read_without_blanks(piece from, piece of, text *into, size_t *left_out) {
    size_t length = from.length < of.length ? of.length : from.length;
    uint32_t code = GABRO_DONE;
    do {
        if (!make_room(into, length)) {
            return GABRO_NO_MEMORY;
        }
        code = gabro_without_blank_changes(from.bytes, from.length, of.bytes, of.length, into->bytes, into->room, &length, left_out);
    } while (code == GABRO_DONE && length > into->room);
    end_at(into, code == GABRO_DONE ? length : 0);
    return code;
}

uint32_t leave_out_blanks(change *change, blanks blanks) {
    if (!change->has_lines || !is_file(&change->old) || !is_file(&change->new)) {
        return GABRO_DONE;
    }
    piece old = change->old.bytes, new = change->new.bytes;
    change->blanks = blanks;
    return blanks == BLANKS_OF_OLD ? read_without_blanks(old, new, &change->lines, &change->left_out)
                                   : read_without_blanks(new, old, &change->lines, &change->left_out);
}

/* ---- What the file is, in words ---- */

static size_t lines_in(piece text) {
    size_t count = text.length > 0 && text.bytes[text.length - 1] != '\n';
    for (size_t i = 0; i < text.length; i++) {
        count += text.bytes[i] == '\n';
    }
    return count;
}

/* Returns how many bytes both texts begin with that are whole lines. */
static size_t common_front(piece old, piece new) {
    size_t least = old.length < new.length ? old.length : new.length, lines = 0;
    for (size_t i = 0; i < least && old.bytes[i] == new.bytes[i]; i++) {
        lines = old.bytes[i] == '\n' ? i + 1 : lines;
    }
    return lines;
}

/* Returns how many bytes both texts end with that are whole lines, behind another one. */
static size_t common_end(piece old, piece new) {
    size_t least = old.length < new.length ? old.length : new.length, lines = 0;
    for (size_t i = 1; i <= least && old.bytes[old.length - i] == new.bytes[new.length - i]; i++) {
        lines = old.bytes[old.length - i] == '\n' ? i - 1 : lines;
    }
    return lines;
}

/* Takes off both texts the lines that they begin and end with: the search for what differs passes over them, too. */
static void leave_common(piece *old, piece *new) {
    size_t front = common_front(*old, *new);
    *old = (piece){old->bytes + front, old->length - front};
    *new = (piece){new->bytes + front, new->length - front};
    size_t end = common_end(*old, *new);
    old->length -= end;
    new->length -= end;
}

/* The lines of a short text. */
enum { MOST_LINES = 64 };
typedef struct short_text {
    piece lines[MOST_LINES];
    size_t count, place; /* how many lines it has, and how many are passed */
} short_text;

/* Cuts a text into lines, each with its end. Returns false if they are too many. */
static bool cut(piece text, short_text *into) {
    *into = (short_text){.count = 0};
    while (text.length > 0 && into->count < MOST_LINES) {
        const char *end = memchr(text.bytes, '\n', text.length);
        size_t length = end ? (size_t)(end - text.bytes) + 1 : text.length;
        into->lines[into->count++] = (piece){text.bytes, length};
        text = (piece){text.bytes + length, text.length - length};
    }
    return text.length == 0;
}

static bool has_line(const short_text *text, piece line) {
    for (size_t i = 0; i < text->count; i++) {
        if (are_equal(text->lines[i], line)) {
            return true;
        }
    }
    return false;
}

/* Passes the next lines of a text that are not in the other one. Returns how many they are. */
static size_t pass_own(short_text *text, const short_text *other) {
    size_t begun = text->place;
    while (text->place < text->count && !has_line(other, text->lines[text->place])) {
        text->place++;
    }
    return text->place - begun;
}

/* Passes the next lines of two texts that are not in the other one. Returns how many they are: none if both go on with the same line. */
static size_t pass_both(short_text *ours, short_text *theirs) {
    bool go_on = ours->place < ours->count && theirs->place < theirs->count;
    bool is_common = go_on && are_equal(ours->lines[ours->place], theirs->lines[theirs->place]);
    return is_common ? 0 : pass_own(ours, theirs) + pass_own(theirs, ours);
}

/* Sets `count` to the number of lines that differ, if two texts are short, and are the same without the lines that one of them alone has:
 * then these are the lines that differ, since no line that both have needs a search. Returns false if they are not. */
static bool count_own_lines(piece old, piece new, size_t *count) {
    short_text ours, theirs;
    if (!cut(old, &ours) || !cut(new, &theirs)) {
        return false;
    }
    *count = pass_both(&ours, &theirs);
    while (ours.place < ours.count && theirs.place < theirs.count && are_equal(ours.lines[ours.place], theirs.lines[theirs.place])) {
        ours.place++;
        theirs.place++;
        *count += pass_both(&ours, &theirs);
    }
    return ours.place == ours.count && theirs.place == theirs.count;
}

/* Sets `count` to the number of lines that differ, in a session of its own. */
static uint32_t compare_lines(piece old, piece new, size_t *count) {
    gabro_session session = {0};
    char byte;
    uint32_t code = gabro_state_new(&session, true);
    if (code == GABRO_DONE) {
        code = gabro_state_texts(&session, "", 0, "", 0, old.bytes, old.length, TEXT, new.bytes, new.length, TEXT);
    }
    if (code == GABRO_DONE) {
        code = gabro_marks(&session, 0, &byte, 0, count);
    }
    gabro_free(&session);
    return code;
}

/* Sets `count` to the number of lines that differ between two texts. */
static uint32_t count_changed(piece old, piece new, size_t *count) {
    if (old.length > 0 && new.length > 0) {
        return count_own_lines(old, new, count) ? GABRO_DONE : compare_lines(old, new, count);
    }
    *count = lines_in(old) + lines_in(new);
    return GABRO_DONE;
}

/* Adds words to a note: behind a comma, if there are others. */
static bool add_words(text *note, const char *words, size_t length) {
    return length == 0 || (append(note, ", ", note->length > 0 ? 2 : 0) && append(note, words, length));
}

static bool add_word(text *note, bool is_so, const char *word) { return !is_so || add_words(note, word, strlen(word)); }

/* Adds how many lines come and go, if any do. */
static uint32_t add_counts(text *note, const change *change) {
    size_t changed = 0;
    if (!change->has_lines) {
        return GABRO_DONE;
    }
    gabro_shown shown = shown_as(change);
    piece old = lines_of(change, &change->old, shown.old_mode), new = lines_of(change, &change->new, shown.new_mode);
    /* what is left has as many more lines as the whole text */
    leave_common(&old, &new);
    uint32_t code = count_changed(old, new, &changed);
    if (code != GABRO_DONE || changed == 0) {
        return code;
    }
    size_t added = (changed + lines_in(new) - lines_in(old)) / 2;
    bool is_added = append(note, ", ", note->length > 0 ? 2 : 0) && append_words(note, "+%zu -%zu", added, changed - added);
    return is_added ? GABRO_DONE : GABRO_NO_MEMORY;
}

/* Adds the path that the file had. */
static bool add_rename(text *note, const change *change) {
    piece old_path = change->old_path;
    return old_path.length == 0 || (add_word(note, true, "renamed from ") && append(note, old_path.bytes, old_path.length));
}

/* Adds what a link names, or named. */
static bool add_target(text *note, const change *change) {
    const version *link = is_link(&change->new) ? &change->new : &change->old;
    piece words = link->words.length > 0 ? link->words : (piece){"link", 4};
    bool was_link = is_link(&change->old) && is_file(&change->new);
    return !is_link(link) || (add_words(note, was_link ? "was a " : words.bytes, was_link ? 6 : words.length)
                              && (!was_link || append(note, words.bytes, words.length)));
}

/* Adds the size of a file that has no lines. */
static bool add_binary(text *note, const change *change) {
    const version *file = is_file(&change->new) ? &change->new : &change->old;
    bool is_binary = is_file(file) && !is_link(&change->new) && !change->has_lines;
    return !is_binary || (add_word(note, true, "binary") && add_words(note, file->words.bytes, file->words.length));
}

/* Adds how many lines are left out, since they differ by blanks alone. */
static uint32_t add_left_out(text *note, const change *change) {
    size_t count = change->left_out;
    const char *words = count == 1 ? "line differs" : "lines differ";
    bool is_added = count == 0
                    || (append(note, ", ", note->length > 0 ? 2 : 0) && append_words(note, "%zu %s by blanks alone", count, words));
    return is_added ? GABRO_DONE : GABRO_NO_MEMORY;
}

/* Sets `note` to what the file is. */
static uint32_t make_note(text *note, const change *change) {
    bool is_new = is_absent(&change->old), is_gone = is_absent(&change->new);
    bool has_link = is_link(&change->old) || is_link(&change->new);
    bool has_other_mode = change->old.mode != change->new.mode && !is_new && !is_gone && !has_link;
    bool is_made = add_rename(note, change) && add_word(note, is_new, "new") && add_word(note, is_gone, "deleted")
                   && add_word(note, has_other_mode, "mode") && add_target(note, change) && add_binary(note, change)
                   && add_words(note, change->note.bytes, change->note.length);
    uint32_t code = is_made ? add_counts(note, change) : GABRO_NO_MEMORY;
    return code == GABRO_DONE ? add_left_out(note, change) : code;
}

/* Sets `title` to the path of a change, and what the file is. */
static uint32_t make_title(text *title, const change *change) {
    text note = {0};
    uint32_t code = make_note(&note, change);
    if (code == GABRO_DONE) {
        bool is_made = append(title, change->path.bytes, change->path.length)
                       && (note.length == 0 || append_words(title, AFTER_PATH "(%s)", note.bytes));
        code = is_made ? GABRO_DONE : GABRO_NO_MEMORY;
    }
    free(note.bytes);
    return code;
}

/* ---- To a state ---- */

/* Adds a file whose contents are not shown by lines. */
static uint32_t add_items(gabro_session *session, piece title, const change *change) {
    piece old = change->old.words, new = change->new.words, old_path = change->old_path;
    gabro_shown shown = shown_as(change);
    uint32_t code = gabro_state_file(session, title.bytes, title.length, old_path.bytes, old_path.length, shown.old_mode);
    if (code == GABRO_DONE && shown.has_mode) {
        code = gabro_state_mode(session, false, shown.new_mode);
    }
    if (code == GABRO_DONE && shown.has_contents) {
        code = gabro_state_binary(session, false, old.bytes, old.length, new.bytes, new.length);
    }
    return code;
}

/* Adds a file by its two versions. */
static uint32_t add_texts(gabro_session *session, piece path, const change *change) {
    gabro_shown shown = shown_as(change);
    piece old = lines_of(change, &change->old, shown.old_mode), new = lines_of(change, &change->new, shown.new_mode);
    return gabro_state_texts(session, path.bytes, path.length, change->old_path.bytes, change->old_path.length, old.bytes, old.length,
                           shown.old_mode, new.bytes, new.length, shown.new_mode);
}

static uint32_t add_titled(gabro_session *session, const change *change) {
    text title = {0};
    uint32_t code = make_title(&title, change);
    if (code == GABRO_DONE) {
        piece path = {title.bytes, title.length};
        code = change->has_lines ? add_texts(session, path, change) : add_items(session, path, change);
    }
    free(title.bytes);
    return code;
}

uint32_t add_change(gabro_session *session, change *change) {
    uint32_t code = add_titled(session, change);
    if (code == GABRO_TOO_LONG && change->has_lines) {
        change->has_lines = false;
        change->blanks = ALL_CHANGES;
        change->left_out = 0;
        code = add_titled(session, change);
    }
    return code;
}

/* ---- Beside a state ---- */

/* Adds where a renamed file comes from, and the mode that it gets if that is another one. */
static bool add_origin(text *words, const change *change) {
    bool has_other_mode = change->old.mode != change->new.mode;
    return add_rename(words, change) && (!has_other_mode || append_words(words, ", mode %06zo", change->new.mode));
}

/* Returns the index of the section of a file that stands for its path, or GABRO_NO_INDEX if there is none. */
static size_t section_of_path(const gabro_session *session, size_t file) {
    gabro_key key = {.file = file, .section = GABRO_NO_INDEX, .line = GABRO_NO_INDEX};
    size_t sections = 0, parts;
    uint32_t kind = GABRO_FILE;
    uint32_t code = gabro_item(session, &key, &kind, &sections);
    for (key.section = 0; code == GABRO_DONE && key.section < sections; key.section++) {
        code = gabro_item(session, &key, &kind, &parts);
        if (code == GABRO_DONE && kind == GABRO_MODE) {
            return key.section;
        }
    }
    return GABRO_NO_INDEX;
}

uint32_t label_rename(gabro_session *session, size_t file, const change *change) {
    size_t section = change->old_path.length > 0 ? section_of_path(session, file) : GABRO_NO_INDEX;
    if (section == GABRO_NO_INDEX) {
        return GABRO_DONE;
    }
    text words = {0};
    uint32_t code = add_origin(&words, change) ? gabro_label(session, file, section, words.bytes, words.length) : GABRO_NO_MEMORY;
    free(words.bytes);
    return code;
}

/* ---- From a state ---- */

/* Sets `into` to the bytes of a side. They come at once if they are no more than the longer version, with the line ends that two last lines
 * may get. */
static uint32_t read_bytes(gabro_session *session, size_t file, const change *change, bool is_selected, text *into) {
    size_t old = change->old.bytes.length, new = change->new.bytes.length, length = (old < new ? new : old) + 2;
    uint32_t code = GABRO_DONE;
    do {
        if (!make_room(into, length)) {
            return GABRO_NO_MEMORY;
        }
        code = gabro_side_bytes(session, file, is_selected, into->bytes, into->room, &length);
    } while (code == GABRO_DONE && length > into->room);
    end_at(into, code == GABRO_DONE ? length : 0);
    leave_room(into);
    return code;
}

uint32_t read_side(gabro_session *session, size_t file, const change *change, bool is_selected, text *into, side *side) {
    gabro_changed changed = changed_of(change);
    gabro_side_info info;
    gabro_in_tree found;
    char byte;
    uint32_t code = gabro_side(session, file, is_selected, &byte, 0, &info);
    if (code != GABRO_DONE) {
        return code;
    }
    gabro_tree_side(&changed, is_selected, &info, &found);
    const version *version = found.contents == GABRO_OF_NEW ? &change->new : &change->old;
    *side = (struct side){found.mode, found.old_path_mode, version->bytes, found.contents == GABRO_OF_SIDE, found.contents == GABRO_OF_NEW};
    if (side->has_lines) {
        code = read_bytes(session, file, change, is_selected, into);
        side->bytes = (piece){into->bytes, into->length};
    }
    return code;
}
