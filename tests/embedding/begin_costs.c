/* begin_costs calls|lines|json LINES [BYTES [COUNT]]: begins a session over LINES changed lines, by one call for all of them (`calls`),
 * by a call for each (`lines`), or over the JSON form (`json`). Each line has BYTES bytes, at most 100, or else (0) is one of a
 * program. By calls there is a section for each COUNT lines, or else one for all. It prints the bytes of the texts, the
 * milliseconds from the first call until the session waits, and the most bytes of memory that the library had taken at once
 * meanwhile, with 8 bytes for each block. The status is 1 if that is more than three times the bytes of the texts and 64 bytes for
 * each line. Link it with -Wl,--wrap=malloc,--wrap=realloc,--wrap=free. */
#define _XOPEN_SOURCE 700
#include "gabrosty.h"

#include <malloc.h>
#include <stdio.h>
#include <stdlib.h>
#include <string.h>
#include <time.h>

enum { LONGEST_LINE = 100, JSON_OF_LINE = 60 };

static size_t in_use, most_in_use;

extern void *__real_malloc(size_t size);
extern void *__real_realloc(void *block, size_t size);
extern void __real_free(void *block);

static void *taken(void *block) {
    in_use += block ? malloc_usable_size(block) + sizeof(size_t) : 0;
    most_in_use = in_use > most_in_use ? in_use : most_in_use;
    return block;
}

static void given_back(void *block) { in_use -= block ? malloc_usable_size(block) + sizeof(size_t) : 0; }

void *__wrap_malloc(size_t size) { return taken(__real_malloc(size)); }

void *__wrap_realloc(void *block, size_t size) {
    given_back(block);
    return taken(__real_realloc(block, size));
}

void __wrap_free(void *block) {
    given_back(block);
    __real_free(block);
}

static double now(void) {
    struct timespec time;
    clock_gettime(CLOCK_MONOTONIC, &time);
    return (double)time.tv_sec * 1e3 + (double)time.tv_nsec / 1e6;
}

/* One line without its end: of `bytes` bytes with it, or if that is 0 one of a program. */
static char *add_line(char *end, size_t number, size_t bytes) {
    if (bytes == 0) {
        return end + sprintf(end, "    let line_%zu = read(input)?;", number);
    }
    memset(end, 'a' + (char)(number % 26), bytes - 1);
    return end + bytes - 1;
}

static char *add_json_line(char *end, size_t number, size_t bytes) {
    end += sprintf(end, "%s{\"is_checked\":false,\"change_type\":\"Added\",\"line\":\"", number ? "," : "");
    end = add_line(end, number, bytes);
    return end + sprintf(end, "\\n\"}");
}

/* The text of the lines, or the JSON form of the state. */
static char *text_of(size_t lines, size_t bytes, bool is_json) {
    char *text = malloc(lines * (LONGEST_LINE + JSON_OF_LINE) + 200), *end = text;
    if (is_json) {
        end += sprintf(end, "{\"is_read_only\":false,\"commits\":[],\"files\":[{\"old_path\":null,\"path\":\"f\",\"file_mode\":{\"Unix\":33188},"
                            "\"sections\":[{\"Changed\":{\"lines\":[");
    }
    for (size_t i = 0; i < lines; i++) {
        if (is_json) {
            end = add_json_line(end, i, bytes);
        } else {
            end = add_line(end, i, bytes);
            *end++ = '\n';
        }
    }
    strcpy(end, is_json ? "]}}]}]}" : "");
    return text;
}

static bool add_lines(gabro_session *session, const char *text, size_t length, bool is_each) {
    while (is_each && length > 0) {
        size_t line = (size_t)((const char *)memchr(text, '\n', length) + 1 - text);
        if (gabro_state_changes(session, true, false, text, line) != GABRO_DONE) {
            return false;
        }
        text += line, length -= line;
    }
    return gabro_state_changes(session, true, false, text, length) == GABRO_DONE;
}

/* How many bytes the first `count` lines have. */
static size_t first_lines(const char *text, size_t length, size_t count) {
    const char *end = text;
    for (size_t i = 0; i < count && end < text + length; i++) {
        end = (const char *)memchr(end, '\n', (size_t)(text + length - end)) + 1;
    }
    return (size_t)(end - text);
}

/* Adds the lines in sections of `count` lines, or in one section if that is 0. */
static bool add_sections(gabro_session *session, const char *text, size_t length, bool is_each, size_t count) {
    bool is_well = true;
    while (length > 0 && is_well) {
        size_t section = count ? first_lines(text, length, count) : length;
        is_well = gabro_state_section(session, true) == GABRO_DONE && add_lines(session, text, section, is_each);
        text += section, length -= section;
    }
    return is_well;
}

int main(int argc, char **argv) {
    gabro_session session = {0};
    const char *how = argc > 1 ? argv[1] : "calls";
    size_t lines = argc > 2 ? strtoul(argv[2], NULL, 10) : 0, bytes = argc > 3 ? strtoul(argv[3], NULL, 10) : 0;
    size_t count = argc > 4 ? strtoul(argv[4], NULL, 10) : 0;
    bool is_json = strcmp(how, "json") == 0;
    if (bytes > LONGEST_LINE) {
        return 2;
    }
    char *text = text_of(lines, bytes, false), *given = is_json ? text_of(lines, bytes, true) : text;
    size_t length = strlen(text), before = in_use;
    most_in_use = in_use;
    double begun = now();
    bool is_well = is_json ? gabro_new(&session, given, strlen(given), 80, 24) == GABRO_DONE
        : gabro_state_new(&session, false) == GABRO_DONE && gabro_state_file(&session, "f", 1, "", 0, 0100644) == GABRO_DONE
            && add_sections(&session, text, length, strcmp(how, "lines") == 0, count) && gabro_begin(&session, 80, 24) == GABRO_DONE;
    double ended = now();
    size_t most = most_in_use - before, limit = 3 * length + 64 * lines;
    printf("%s: %zu lines, %zu bytes, %.1f ms, %zu bytes of memory, with a limit of %zu\n", how, lines, length, ended - begun, most, limit);
    gabro_free(&session);
    return is_well && (is_json || most <= limit) ? 0 : 1;
}
