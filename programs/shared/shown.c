/* Texts of others as they can stand on a screen, and what the program says. No proof covers this file. */
#define _GNU_SOURCE
#include "shown.h"
#include "characters.h"

#include <stdarg.h>
#include <stdio.h>
#include <string.h>

/* Adds a character that is not seen, or a byte that is no UTF-8, written out. */
static bool add_written_out(text *into, unsigned char byte, size_t length, uint32_t code) {
    const char *form = length <= 1 ? "\\x%02x" : code <= 0xffff ? "\\u%04x" : "\\U%08x";
    return append_words(into, form, length <= 1 ? byte : code);
}

/* Adds bytes as they are shown. */
static bool add_printable(text *into, piece bytes, bool has_doubled_backslashes) {
    bool is_added = append(into, "", 0);
    for (size_t at = 0; at < bytes.length && is_added;) {
        uint32_t code = 0;
        size_t length = character_at(bytes.bytes + at, bytes.length - at, &code);
        if (length == 0 || is_unseen(code)) {
            is_added = add_written_out(into, (unsigned char)bytes.bytes[at], length, code);
        } else {
            is_added = append(into, bytes.bytes + at, length) && (code != '\\' || !has_doubled_backslashes || append(into, "\\", 1));
        }
        at += length > 0 ? length : 1;
    }
    return is_added;
}

/* Returns with how many printable characters of ASCII bytes begin: most paths have no others. */
static size_t plain_front(piece bytes) {
    size_t count = 0;
    while (count < bytes.length && ' ' <= bytes.bytes[count] && bytes.bytes[count] <= '~') {
        count++;
    }
    return count;
}

/* Returns whether bytes can stand on a screen as they are. */
static bool is_printable(piece bytes) {
    for (size_t at = plain_front(bytes), length = 0; at < bytes.length; at += length) {
        uint32_t code = 0;
        length = character_at(bytes.bytes + at, bytes.length - at, &code);
        if (length == 0 || is_unseen(code)) {
            return false;
        }
    }
    return true;
}

bool show(piece *shown, text *made) {
    if (is_printable(*shown)) {
        return true;
    }
    bool is_made = add_printable(made, *shown, false);
    *shown = is_made ? (piece){made->bytes, made->length} : *shown;
    return is_made;
}

/* Adds a character as JSON writes it out: in one number of 16 bits, or in two. */
static bool add_numbers(text *into, uint32_t code) {
    uint32_t above = code - 0x10000;
    return code <= 0xffff ? append_words(into, "\\u%04x", code)
                          : append_words(into, "\\u%04x\\u%04x", 0xd800 + (above >> 10), 0xdc00 + (above & 0x3ff));
}

bool add_plain_json(text *into, piece json) {
    bool is_added = append(into, "", 0);
    size_t begun = 0;
    for (size_t at = 0, length = 0; at < json.length && is_added; at += length > 0 ? length : 1) {
        uint32_t code = 0;
        length = character_at(json.bytes + at, json.length - at, &code);
        /* controls of ASCII are written out already, and a line end is none of a string's */
        if (length > 0 && code > '~' && is_unseen(code)) {
            is_added = append(into, json.bytes + begun, at - begun) && add_numbers(into, code);
            begun = at + length;
        }
    }
    return is_added && append(into, json.bytes + begun, json.length - begun);
}

const char *named(const char *path) {
    enum { LONGEST = 600, PART = 250 };
    static char words[LONGEST];
    size_t length = strlen(path);
    if (length < LONGEST) {
        return path;
    }
    snprintf(words, sizeof words, "%.*s .. %s", PART, path, path + length - PART);
    return words;
}

bool add_shown(text *into, const char *path) { return add_printable(into, (piece){path, strlen(path)}, true); }

void print_shown(const char *end, const char *form, ...) {
    text shown = {0};
    char *made = NULL;
    va_list words;
    va_start(words, form);
    int length = vasprintf(&made, form, words);
    va_end(words);
    bool is_made = length >= 0 && add_printable(&shown, (piece){made, (size_t)length}, false) && append(&shown, end, strlen(end));
    fputs(is_made ? shown.bytes : NAME ": not enough memory for a message\n", stderr);
    if (length >= 0) {
        free(made);
    }
    free(shown.bytes);
}
