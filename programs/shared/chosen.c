/* What is chosen in a session that goes on. No proof covers this file. */
#define _GNU_SOURCE
#include "chosen.h"

#include <string.h>

/* The most commits of a state. */
enum { COMMITS = 2 };

/* Adds the marks of a file, a byte for each item. A file has as many items as before. */
static bool add_marks(gabro_session *session, size_t file, text *into) {
    size_t count = 0;
    uint32_t code = gabro_marks(session, file, into->bytes + into->length, into->room - into->length, &count);
    if (code == GABRO_DONE && count > into->room - into->length) {
        /* twice what is needed, for the files behind it */
        code = make_room(into, 2 * (into->length + count)) ? gabro_marks(session, file, into->bytes + into->length, count, &count) : GABRO_NO_MEMORY;
    }
    end_at(into, into->length + (code == GABRO_DONE ? count : 0));
    return code == GABRO_DONE;
}

/* Adds the message of a commit, behind its length; of a commit without one nothing. */
static bool add_message(gabro_session *session, size_t commit, text *into) {
    char byte;
    size_t length = 0;
    uint32_t code = gabro_message(session, commit, &byte, 0, &length);
    if (code != GABRO_DONE) {
        return code == GABRO_NO_ITEM;
    }
    if (!append_words(into, "%zu\n", length) || !make_room(into, into->length + length)) {
        return false;
    }
    code = gabro_message(session, commit, into->bytes + into->length, length, &length);
    end_at(into, into->length + (code == GABRO_DONE ? length : 0));
    return code == GABRO_DONE;
}

/* Sets `into` to all marks and messages. Returns false if there is no memory for them. */
static bool read_chosen(gabro_session *session, text *into) {
    size_t files = 0;
    bool is_read = make_room(into, FIRST_ROOM) && gabro_files(session, &files) == GABRO_DONE;
    for (size_t i = 0; is_read && i < COMMITS; i++) {
        is_read = add_message(session, i, into);
    }
    for (size_t i = 0; is_read && i < files; i++) {
        is_read = add_marks(session, i, into);
    }
    return is_read;
}

chosen begin_chosen(gabro_session *session) {
    chosen chosen = {0};
    chosen.is_known = read_chosen(session, &chosen.first);
    leave_room(&chosen.first);
    return chosen;
}

/* Returns whether all is as it was. */
static bool is_unchanged(const chosen *chosen, gabro_session *session) {
    text now = {0};
    bool is_read = chosen->is_known && read_chosen(session, &now);
    bool is_same = is_read && now.length == chosen->first.length
                   && (now.length == 0 || memcmp(now.bytes, chosen->first.bytes, now.length) == 0);
    free(now.bytes);
    return is_same;
}

void quit_if_unchanged(chosen *chosen, gabro_session *session) {
    static const char word[] = "ctrl-c"; /* while the question is open, it gives up */
    bool is_asked = gabro_dialog(session) == GABRO_QUESTION;
    bool is_opened = is_asked && !chosen->was_asked;
    chosen->was_asked = is_asked;
    if (is_opened && is_unchanged(chosen, session)) {
        gabro_press(session, word, sizeof word - 1);
    }
}
