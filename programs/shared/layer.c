/* The layer of a session, as the environment asks for it. No proof covers this file. */
#define _GNU_SOURCE
#include "layer.h"
#include "characters.h"
#include "files.h"
#include "keys.h"
#include "target.h"

#include <ctype.h>
#include <limits.h>
#include <stdio.h>
#include <string.h>
#include <sys/ioctl.h>
#include <termios.h>

/* Sets `number` to the index of what the variable `name` says among `words`, and leaves it if the variable is not there or is empty.
 * Returns whether it says one of them. */
static bool read_choice(const char *name, const char *const *words, uint32_t *number) {
    const char *given = getenv(name);
    if (!given || !*given) {
        return true;
    }
    for (uint32_t i = 0; words[i]; i++) {
        if (strcmp(given, words[i]) == 0) {
            *number = i;
            return true;
        }
    }
    return false;
}

/* Returns whether `text` is UTF-8. */
static bool is_utf8(const char *text) {
    size_t left = strlen(text), count = 1;
    for (uint32_t code; left > 0 && count > 0; text += count, left -= count) {
        count = character_at(text, left, &code);
    }
    return count > 0;
}

const char *read_layer(layer *layer, const char **values) {
    static const char *const switches[] = {"on", "off", NULL}, *const themes[] = {"dark", "light", "sixteen", "none", NULL},
                      *const starts[] = {"as-is", "folded", "open", "fit", NULL};
    const char *no_colour = getenv("NO_COLOR"), *accept = getenv("SELECT_ACCEPT");
    uint32_t is_off = 0, is_unnamed = 0;
    layer->theme = no_colour && *no_colour ? GABRO_NO_COLOURS : GABRO_DARK;
    layer->folds = GABRO_AS_IT_IS;
    layer->accept = accept ? accept : "c accepts";
    struct { const char *name, *values; const char *const *words; uint32_t *number; } choices[] = {
        {"SELECT_LAYER", "on or off", switches, &is_off},
        {"SELECT_THEME", "dark, light, sixteen or none", themes, &layer->theme},
        {"SELECT_START", "as-is, folded, open or fit", starts, &layer->folds},
        {"SELECT_HEADINGS", "on or off", switches, &is_unnamed},
    };
    for (size_t i = 0; i < sizeof choices / sizeof *choices; i++) {
        if (!read_choice(choices[i].name, choices[i].words, choices[i].number)) {
            *values = choices[i].values;
            return choices[i].name;
        }
    }
    layer->is_on = !is_off;
    layer->has_headings = !is_unnamed;
    *values = "text in UTF-8";
    return is_utf8(layer->accept) ? NULL : "SELECT_ACCEPT";
}

uint32_t begin_layer(gabro_session *session, const layer *layer, uint16_t width, uint16_t height) {
    return layer->is_on ? gabro_begin_layer(session, width, height) : gabro_begin(session, width, height);
}

uint32_t open_layer(gabro_session *session, const layer *layer, const text *json, uint16_t width, uint16_t height) {
    return layer->is_on ? gabro_new_layer(session, json->bytes, json->length, width, height)
                        : gabro_new(session, json->bytes, json->length, width, height);
}

/* Shows the session on the size of the terminal, if that is known. */
static uint32_t take_size(gabro_session *session, int terminal) {
    struct winsize size = {0};
    if (ioctl(terminal, TIOCGWINSZ, &size) != 0 || size.ws_col == 0 || size.ws_row == 0) {
        return GABRO_DONE;
    }
    return gabro_resize(session, size.ws_col, size.ws_row);
}

uint32_t start_layer(gabro_session *session, const layer *layer, int terminal) {
    static const gabro_key nothing = {GABRO_NO_INDEX, GABRO_NO_INDEX, GABRO_NO_INDEX, GABRO_NO_INDEX};
    if (!layer->is_on || gabro_stage(session) != GABRO_WAITING) {
        return GABRO_DONE;
    }
    uint32_t code = gabro_theme(session, layer->theme);
    if (code == GABRO_DONE) {
        code = gabro_accept_text(session, layer->accept, strlen(layer->accept));
    }
    if (code == GABRO_DONE) {
        code = take_size(session, terminal);
    }
    return code == GABRO_DONE ? gabro_start(session, layer->folds, &nothing) : code;
}

uint32_t name_sections(gabro_session *session, const layer *layer) {
    bool is_due = layer->is_on && layer->has_headings && gabro_stage(session) == GABRO_WAITING;
    return is_due ? gabro_name_sections(session) : GABRO_DONE;
}

/* ---- Keys of the user's own ---- */

const char *folder_named(const char *name) {
    const char *folder = getenv(name);
    return folder && *folder == '/' ? folder : NULL;
}

/* Sets `path` to that of the file of keys. Returns whether there may be one, and sets `is_named` if the user names it. */
static bool path_of_keys(char *path, size_t room, bool *is_named) {
    const char *named = getenv("SELECT_KEYS"), *settings = folder_named("XDG_CONFIG_HOME"), *home = folder_named("HOME");
    *is_named = named && *named;
    int length = *is_named  ? snprintf(path, room, "%s", named)
                 : settings ? snprintf(path, room, "%s/gabrosty/keys", settings)
                            : snprintf(path, room, "%s/.config/gabrosty/keys", home ? home : "");
    return length < (int)room && (*is_named || settings || home);
}

/* Returns the end of the word at `at`. */
static const char *end_of_word(const char *at, const char *end) {
    while (at < end && !isspace((unsigned char)*at)) {
        at++;
    }
    return at;
}

static const char *skip_blanks(const char *at, const char *end) {
    while (at < end && isspace((unsigned char)*at)) {
        at++;
    }
    return at;
}

/* A line of the file: a key and a word, `KEY WORD`. Both are empty if it says nothing. */
typedef struct key_line {
    const char *key, *key_end, *word, *word_end;
} key_line;

/* Reads a line into `line`. Returns whether it is empty, a comment, or two words. */
static bool read_line(const char *at, const char *end, key_line *line) {
    line->key = skip_blanks(at, end);
    if (line->key == end || *line->key == '#') {
        *line = (key_line){end, end, end, end};
        return true;
    }
    line->key_end = end_of_word(line->key, end);
    line->word = skip_blanks(line->key_end, end);
    line->word_end = end_of_word(line->word, end);
    return line->word < line->word_end && skip_blanks(line->word_end, end) == end;
}

/* Adds ` KEY=WORD` to `pieces`. A capital is a letter with shift: H and L are small ones then, as in scripts. Returns false if there is no
 * memory for it. */
static bool add_piece(text *pieces, const key_line *line) {
    size_t length = (size_t)(line->key_end - line->key) + (size_t)(line->word_end - line->word) + 8;
    bool is_capital = line->key_end == line->key + 1 && *line->key >= 'A' && *line->key <= 'Z';
    const char *key = !is_capital ? line->key : *line->key == 'H' ? "h" : *line->key == 'L' ? "l" : line->key;
    if (!make_room(pieces, pieces->length + length > pieces->room ? pieces->length + length : pieces->room)) {
        return false;
    }
    int count = sprintf(pieces->bytes + pieces->length, " %s%.*s=%.*s", is_capital ? "shift-" : "", (int)(line->key_end - line->key), key,
                        (int)(line->word_end - line->word), line->word);
    end_at(pieces, pieces->length + (size_t)count);
    return true;
}

/* The lines of the page of keys that name the keys of the user's own. */
static text own_lines;

/* Adds a key and its word to the page of keys. If memory for that fails, the page lacks them. */
static void tell_own_key(const key_line *line) {
    const char *heading = own_lines.length == 0 ? "Keys of your own, before all others:\n" : "";
    append_words(&own_lines, "%s  %-*.*s%.*s\n", heading, WIDTH_OF_KEYS, (int)(line->key_end - line->key), line->key,
                 (int)(line->word_end - line->word), line->word);
}

const char *page_of_keys(const layer *layer, const char *others) {
    static text page;
    bool has_own = own_lines.length > 0;
    end_at(&page, 0);
    bool is_made = layer->is_on && append_words(&page, "%s%s%s", has_own ? own_lines.bytes : "", has_own ? "\n" : "", others);
    return is_made ? page.bytes : NULL;
}

/* Adds the key of a line to `pieces`, and looks whether the library knows it. Returns the code of that, GABRO_NO_KEY for a line of another
 * form. */
static uint32_t take_line(gabro_session *session, const char *at, const char *end, text *pieces) {
    key_line line;
    size_t before = pieces->length;
    if (!read_line(at, end, &line)) {
        return GABRO_NO_KEY;
    }
    if (line.key == line.key_end) {
        return GABRO_DONE;
    }
    tell_own_key(&line);
    return add_piece(pieces, &line) ? gabro_keys(session, pieces->bytes + before, pieces->length - before) : GABRO_NO_MEMORY;
}

/* Takes the lines of `file` one by one, and then all keys. Returns the code of the call that failed, and sets `number` to the line
 * and `at` to its beginning; or returns GABRO_DONE. */
static uint32_t take_lines(gabro_session *session, const text *file, size_t *number, const char **at) {
    text pieces = {0};
    const char *end = file->bytes + file->length;
    uint32_t code = GABRO_DONE;
    *at = file->bytes;
    for (*number = 1; *at < end; ++*number) {
        const char *found = memchr(*at, '\n', (size_t)(end - *at));
        code = take_line(session, *at, found ? found : end, &pieces);
        if (code != GABRO_DONE) {
            break;
        }
        *at = found ? found + 1 : end;
    }
    if (code == GABRO_DONE && pieces.length > 0) {
        code = gabro_keys(session, pieces.bytes, pieces.length);
    }
    free(pieces.bytes);
    return code;
}

/* Returns what is wrong with a line of the file at `path`. */
static const char *wrong_line(const char *path, size_t number, const char *at, uint32_t code) {
    static char words[PATH_MAX + 256];
    int length = (int)strcspn(at, "\r\n");
    if (code == GABRO_NO_KEY) {
        snprintf(words, sizeof words, "%s, line %zu: \"%.*s\" is no key with what it does: write it as \"ctrl-n j\" or \"x undo\"", path, number,
                 length < 80 ? length : 80, at);
    } else {
        snprintf(words, sizeof words, "%s: the keys cannot be taken", path);
    }
    return words;
}

/* Opens the file of keys. HOME may be another user's, so one that the user does not name has to be this user's or root's. */
static int open_keys(const char *path, bool is_named) { return is_named ? open_named_file(path) : open_own_file(path); }

const char *take_keys(gabro_session *session, const layer *layer) {
    char path[PATH_MAX];
    bool is_named;
    text file = {0};
    if (!layer->is_on || gabro_stage(session) != GABRO_WAITING || !path_of_keys(path, sizeof path, &is_named)) {
        return NULL;
    }
    const char *why = NULL, *at;
    size_t number;
    if (read_and_close(open_keys(path, is_named), &file)) {
        uint32_t code = take_lines(session, &file, &number, &at);
        why = code == GABRO_DONE ? NULL : wrong_line(path, number, at, code);
    } else if (is_named || (errno != ENOENT && errno != ENOTDIR)) {
        static char words[PATH_MAX + 64];
        snprintf(words, sizeof words, "%s: %s", path, reason());
        why = words;
    }
    free(file.bytes);
    return why;
}
