/* Which files of a choice are left out, and what becomes of each path, as the library decides it. No proof covers this file. */
#define _GNU_SOURCE
#include "decided.h"

#include <string.h>

bool add_row(text *rows, const char head[4], const char *path) {
    return append(rows, head, 4) && append(rows, path, strlen(path) + 1);
}

uint32_t decide(const text *rows, text *into) {
    size_t length = FIRST_ROOM;
    uint32_t code = GABRO_NO_MEMORY;
    end_at(into, 0);
    do {
        if (!make_room(into, length)) {
            return GABRO_NO_MEMORY;
        }
        code = gabro_decide_rows(rows->bytes, rows->length, into->bytes, into->room, &length);
    } while (code == GABRO_DONE && length > into->room);
    end_at(into, code == GABRO_DONE ? length : 0);
    return code;
}

const char *first_refusal(const text *decided) {
    const char *record = decided->bytes, *end = record + decided->length;
    while (record < end && strchr("onc-", *record)) {
        record += strlen(record) + 1;
    }
    return record < end ? record : NULL;
}
