/* Meets each refusal that the library for C has a code for, and looks each time that the session is as before then, and
 * goes on. It does nothing that gabrosty.h forbids. It prints nothing, and stops at the first thing that is otherwise. */
#undef NDEBUG
#define _GNU_SOURCE
#include "gabrosty.h"

#include <assert.h>
#include <errno.h>
#include <fcntl.h>
#include <pthread.h>
#include <stdlib.h>
#include <string.h>
#include <unistd.h>

enum { WIDTH = 24, HEIGHT = 4, LONGEST_MESSAGE = 1000000 };

static const char STATE[] =
    "{\"is_read_only\":false,\"commits\":[{\"message\":\"hello\"},{\"message\":null}],\"files\":[{\"old_path\":null,"
    "\"path\":\"f\",\"file_mode\":{\"Unix\":33188},\"sections\":[{\"Changed\":{\"lines\":["
    "{\"is_checked\":true,\"change_type\":\"Added\",\"line\":\"n\\n\"}]}}]}]}";
static const char THREE_COMMITS[] =
    "{\"is_read_only\":false,\"commits\":[{\"message\":null},{\"message\":null},{\"message\":null}],\"files\":[]}";

/* All that a session has to say; of a text its beginning. */
typedef struct {
    uint32_t stage;
    uint32_t end;
    uint32_t owners[HEIGHT][WIDTH];
    gabro_key keys[HEIGHT][WIDTH];
    size_t length;
    char text[512];
} standing;

static gabro_session session;
static standing before;

/* Memory is refused where the C library's own functions have these names beside those that a program may replace. */
#ifdef __GLIBC__
extern void *__libc_malloc(size_t size);
extern void *__libc_realloc(void *block, size_t size);
static volatile bool is_refused;
static volatile long granted; /* how many allocations are granted before one is refused */
static bool is_granted(void) { return !is_refused || granted-- > 0; }
void *malloc(size_t size) { return is_granted() ? __libc_malloc(size) : NULL; }
void *realloc(void *block, size_t size) { return is_granted() ? __libc_realloc(block, size) : NULL; }
#endif

static standing look(void) {
    standing now = {.stage = gabro_stage(&session), .end = gabro_end(&session)};
    for (uint16_t row = 0; row < HEIGHT; row++) {
        for (uint16_t column = 0; column < WIDTH; column++) {
            now.owners[row][column] = gabro_owner(&session, row, column, &now.keys[row][column]);
        }
    }
    uint32_t code = gabro_text(&session, now.text, sizeof now.text, &now.length);
    assert(code == (now.stage == GABRO_NONE ? GABRO_CLOSED : GABRO_DONE));
    return now;
}

static bool is_same(const standing *one, const standing *other) {
    return one->stage == other->stage && one->end == other->end && memcmp(one->owners, other->owners, sizeof one->owners) == 0
        && memcmp(one->keys, other->keys, sizeof one->keys) == 0
        && one->length == other->length && memcmp(one->text, other->text, sizeof one->text) == 0;
}

/* Looks that a call was done, and led to this stage. */
static void done(uint32_t code, uint32_t stage) {
    assert(code == GABRO_DONE);
    before = look();
    assert(before.stage == stage);
    assert((before.end == GABRO_NOT_ENDED) == (stage != GABRO_ACCEPTED && stage != GABRO_ENDED));
}

/* Looks that a call was refused with this code, and left all as it was. */
static void refused(uint32_t code, uint32_t wanted) {
    assert(code == wanted);
    standing now = look();
    assert(is_same(&now, &before));
}

static bool reads(const char *text) {
    return before.length == strlen(text) && memcmp(before.text, text, before.length) == 0;
}

static uint32_t begin(const char *json) { return gabro_new(&session, json, strlen(json), WIDTH, HEIGHT); }

static uint32_t press(const char *word) { return gabro_press(&session, word, strlen(word)); }

static uint32_t press_all(const char *words) { return gabro_press_all(&session, words, strlen(words)); }

static uint32_t type(const char *bytes) { return gabro_type(&session, bytes, strlen(bytes)); }

/* Asks for the selected item, and looks that a refused call wrote nothing. */
static uint32_t ask_selected(gabro_key *key) {
    gabro_key given = {77, 77, 77, 77};
    *key = given;
    uint32_t code = gabro_selected(&session, key);
    assert(code == GABRO_DONE || memcmp(key, &given, sizeof given) == 0);
    return code;
}

/* Asks where the selected item is, and looks that a refused call wrote nothing. */
static uint32_t ask_line(size_t *file, size_t *old_line, size_t *new_line) {
    *file = *old_line = *new_line = 77;
    uint32_t code = gabro_selected_line(&session, file, old_line, new_line);
    assert(code == GABRO_DONE || (*file == 77 && *old_line == 77 && *new_line == 77));
    return code;
}

static uint32_t answer(const char *message) { return gabro_answer(&session, message, strlen(message)); }

static size_t handled; /* how many events the last call counted */

/* Looks that a call that was refused counted nothing. */
static uint32_t counted(uint32_t code) {
    assert(code == GABRO_DONE || handled == 77);
    return code;
}

static uint32_t press_and_count(const char *words) {
    handled = 77;
    return counted(gabro_press_and_count(&session, words, strlen(words), &handled));
}

static uint32_t answer_and_count(const char *message) {
    handled = 77;
    return counted(gabro_answer_and_count(&session, message, strlen(message), &handled));
}

/* Paints, which has to be done, and returns the length of the update. */
static size_t paint(char *out, size_t length) {
    size_t written = 0;
    assert(gabro_paint(&session, out, length, &written) == GABRO_DONE);
    return written;
}

/* There is nothing to paint. What was painted can be forgotten, unless the session is closed. */
static void refuse_paint(uint32_t code_of_repaint) {
    char out[] = "............";
    size_t written = 77;
    refused(gabro_paint(&session, out, sizeof out, &written), code_of_repaint == GABRO_CLOSED ? GABRO_CLOSED : GABRO_NOT_NOW);
    assert(written == 77 && strcmp(out, "............") == 0);
    gabro_cell cell = {77, 77, 77, 77, 77, 77}, given = cell;
    gabro_screen_info info = {77, 77, 77};
    refused(gabro_cells(&session, &cell, 1, out, sizeof out, &info), code_of_repaint == GABRO_CLOSED ? GABRO_CLOSED : GABRO_NOT_NOW);
    bool is_unwritten = cell.start == given.start && cell.length == 77 && cell.columns == 77 && cell.foreground == 77 && cell.background == 77 && cell.flags == 77;
    assert(is_unwritten && info.columns == 77 && info.rows == 77 && info.length == 77 && strcmp(out, "............") == 0);
    refused(gabro_repaint(&session), code_of_repaint);
}

/* Every call that changes a session, where it waits for none of them. */
static void refuse_calls(uint32_t code) {
    refused(press("j"), code);
    gabro_key key;
    refused(type("j"), code);
    refused(ask_selected(&key), code);
    size_t file, old_line, new_line;
    refused(ask_line(&file, &old_line, &new_line), code);
    size_t taken = 77;
    uint32_t own_key = 77;
    refused(gabro_type_to_key(&session, "j", 1, &taken, &own_key), code);
    assert(taken == 77 && own_key == 77);
    refused(gabro_idle(&session), code);
    refused(gabro_click(&session, 1, 1), code);
    refused(answer("bye"), code);
    gabro_key first = {0, 0, GABRO_NO_INDEX, GABRO_NO_INDEX};
    refused(gabro_select(&session, &first), code);
    refused(gabro_resize(&session, WIDTH, HEIGHT), code);
    refused(press("no word"), GABRO_NO_WORD);
    refused(press_all("j k"), code);
    refused(press_all(""), code);
    refused(press_all("j no"), GABRO_NO_WORD);
    refused(press_and_count("j k"), code);
    refused(press_and_count(""), code);
    refused(press_and_count("j no"), GABRO_NO_WORD);
    refused(answer_and_count("bye"), code);
    refuse_paint(code == GABRO_CLOSED ? GABRO_CLOSED : GABRO_DONE);
}

/* The log of the calls beneath a layer, where there is none. */
static void refuse_logged(uint32_t code) {
    char out[] = "........";
    size_t length = 77;
    refused(gabro_logged(&session, out, sizeof out, &length), code);
    assert(length == 77 && strcmp(out, "........") == 0);
}

/* The logged calls begin with these. */
static void check_logged(const char *calls) {
    char log[2048];
    size_t length = 77, wanted = strlen(calls);
    refused(gabro_logged(&session, log, 3, &length), GABRO_DONE);
    assert(length >= wanted && memcmp(log, calls, 3) == 0);
    refused(gabro_logged(&session, log, sizeof log, &length), GABRO_DONE);
    assert(length < sizeof log && memcmp(log, calls, wanted) == 0);
}

/* Every call of a layer, where there is none. */
static void refuse_layer(uint32_t code) {
    gabro_key key = {GABRO_NO_INDEX, GABRO_NO_INDEX, GABRO_NO_INDEX, GABRO_NO_INDEX};
    refused(gabro_theme(&session, GABRO_LIGHT), code);
    refused(gabro_theme(&session, GABRO_NO_COLOURS + 1), GABRO_NO_NUMBER);
    refused(gabro_accept_text(&session, "c stages", 8), code);
    refused(gabro_accept_text(&session, "\xff", 1), GABRO_NOT_TEXT);
    refused(gabro_label(&session, 0, 0, "ours", 4), code);
    refused(gabro_label(&session, 0, 0, "\xff", 1), GABRO_NOT_TEXT);
    refused(gabro_name_sections(&session), code);
    refused(gabro_start(&session, GABRO_ALL_OPEN, &key), code);
    refused(gabro_start(&session, GABRO_OPEN_IF_IT_FITS + 1, &key), GABRO_NO_NUMBER);
    refused(gabro_keys(&session, "x=undo", 6), code);
    refused(gabro_keys(&session, "x", 1), GABRO_NO_KEY);
    refused(gabro_log(&session), code);
    refused(gabro_begin_layer(&session, WIDTH, HEIGHT), code);
}

static void close_session(void) {
    gabro_free(&session);
    before = look();
    assert(before.stage == GABRO_NONE && reads(""));
}

/* Bytes are words at any stage of an open session, and nothing is handled. Where there is no room, nothing is heard. */
static void decode(void) {
    char out[] = "............";
    size_t written = 77;
    refused(gabro_decode(&session, "j", 1, out, sizeof out, &written), before.stage == GABRO_NONE ? GABRO_CLOSED : GABRO_DONE);
    if (before.stage == GABRO_NONE) {
        refused(gabro_decode_idle(&session, out, sizeof out, &written), GABRO_CLOSED);
        assert(written == 77 && strcmp(out, "............") == 0);
        return;
    }
    assert(written == 2 && memcmp(out, "j ..", 4) == 0);
    refused(gabro_decode(&session, "\x1b", 1, out, 0, &written), GABRO_DONE);
    assert(written == 0);
    refused(gabro_decode_idle(&session, out, 3, &written), GABRO_DONE);
    assert(written == 4 && memcmp(out, "j ..", 4) == 0);
    refused(gabro_decode(&session, "[B", 2, out, 1, &written), GABRO_DONE);
    assert(written == 2 && memcmp(out, "j ..", 4) == 0);
    refused(gabro_decode(&session, "[A", 2, out, 2, &written), GABRO_DONE);
    assert(written == 2 && memcmp(out, "k ..", 4) == 0);
}

static void refuse_where_closed(void) {
    close_session();
    refuse_calls(GABRO_CLOSED);
    refuse_layer(GABRO_CLOSED);
    refuse_logged(GABRO_CLOSED);
    decode();
    done(begin(STATE), GABRO_WAITING);
    refuse_layer(GABRO_NOT_NOW);
    refuse_logged(GABRO_NOT_NOW);
    decode();
    gabro_free(NULL);
    assert(gabro_stage(&session) == GABRO_WAITING);
    close_session();
    close_session();
    refuse_calls(GABRO_CLOSED);
}

/* A state that is refused leaves the session closed, also where one was open. */
static void refuse_states(void) {
    const struct {
        const char *json;
        uint32_t code;
    } states[] = {
        {"", GABRO_BAD_STATE}, {"{\"is_read_only\":", GABRO_BAD_STATE}, {"[]", GABRO_BAD_STATE},
        {"\xff", GABRO_NOT_TEXT}, {THREE_COMMITS, GABRO_NOT_ACCEPTED},
    };
    for (size_t i = 0; i < sizeof states / sizeof *states; i++) {
        refused(begin(states[i].json), states[i].code);
        assert(begin(STATE) == GABRO_DONE);
        refused(begin(states[i].json), states[i].code);
        refused(press("j"), GABRO_CLOSED);
    }
    refused(gabro_new(&session, STATE, sizeof STATE, WIDTH, HEIGHT), GABRO_BAD_STATE); /* with the zero behind it */
#ifdef __GLIBC__
    is_refused = true;
    uint32_t code = begin(STATE);
    is_refused = false;
    refused(code, GABRO_NO_MEMORY);
#endif
}

static void refuse_words(void) {
    const char *words[] = {"",       "\xff",      "shot",       "jj",            "j ",         "ctrl-",
                           "click:", "click:1:x", "click:-1:1", "click:1:65536", "ctrl-ctrl-c"};
    done(begin(STATE), GABRO_WAITING);
    for (size_t i = 0; i < sizeof words / sizeof *words; i++) {
        refused(press(words[i]), GABRO_NO_WORD);
    }
    refused(gabro_press(&session, "j", 2), GABRO_NO_WORD); /* with the zero behind it */
    refused(press_all("j shot"), GABRO_NO_WORD);
    refused(press_all("j\xff"), GABRO_NO_WORD);
    refused(answer("bye"), GABRO_NOT_NOW);
    standing begun = before;
    done(press("l"), GABRO_WAITING);
    assert(!is_same(&begun, &before));
}

/* A batch counts the events up to the one that ends the session or asks for a message, also after the session has ended. */
static void count_events(void) {
    done(begin(STATE), GABRO_WAITING);
    done(press_and_count(""), GABRO_WAITING);
    assert(handled == 0);
    done(press_and_count(" j  k none"), GABRO_WAITING);
    assert(handled == 3);
    refused(answer_and_count("bye"), GABRO_NOT_NOW);
    done(press_and_count("j e k e c j"), GABRO_EDITING);
    assert(handled == 2);
    refused(press_and_count("j"), GABRO_NOT_NOW);
    refused(answer_and_count("\xe6\x97"), GABRO_NOT_TEXT);
    done(answer_and_count("one"), GABRO_EDITING);
    assert(handled == 2);
    done(answer_and_count("two"), GABRO_ACCEPTED);
    assert(handled == 1);
    done(begin(STATE), GABRO_WAITING);
    done(press_and_count("ctrl-c j ctrl-c j j"), GABRO_ENDED); /* the first one asks, since the message would be lost */
    assert(handled == 3);
    done(begin(STATE), GABRO_WAITING);
    done(press("click:0:1"), GABRO_WAITING);
    done(press_and_count("click:1:2 j k"), GABRO_ACCEPTED); /* the item accepts behind the batch */
    assert(handled == 3);
    done(gabro_new_layer(&session, STATE, strlen(STATE), WIDTH, HEIGHT), GABRO_WAITING);
    refused(press_and_count("j"), GABRO_NOT_NOW);
    done(press("e"), GABRO_EDITING);
    refused(answer_and_count("bye"), GABRO_NOT_NOW);
}

typedef struct {
    uint32_t code;
    gabro_key key;
} owned;

static owned owner(uint16_t row, uint16_t column) {
    owned found;
    found.code = gabro_owner(&session, row, column, &found.key);
    return found;
}

static bool is_owner(uint16_t row, uint16_t column, uint32_t code, size_t commit, size_t file, size_t section, size_t line) {
    owned found = owner(row, column);
    return found.code == code && found.key.commit == commit && found.key.file == file && found.key.section == section
        && found.key.line == line;
}

/* No size is refused while there is memory, and no place. */
static void take_any_size(void) {
    standing begun = before;
    done(gabro_resize(&session, 0, 0), GABRO_WAITING);
    assert(reads(""));
    done(gabro_click(&session, 0, 0), GABRO_WAITING);
    done(gabro_resize(&session, WIDTH, HEIGHT), GABRO_WAITING);
#ifdef __GLIBC__
    is_refused = true;
    uint32_t code = gabro_resize(&session, UINT16_MAX, UINT16_MAX);
    is_refused = false;
    refused(code, GABRO_NO_MEMORY);
#endif
    done(gabro_click(&session, HEIGHT, 0), GABRO_WAITING);
    done(gabro_click(&session, UINT16_MAX, UINT16_MAX), GABRO_WAITING);
    assert(is_same(&begun, &before));
    assert(owner(HEIGHT, 0).code == GABRO_NOBODY && owner(UINT16_MAX, UINT16_MAX).code == GABRO_NOBODY);
}

/* The owners of places, and what they belong to. */
static void tell_owners(void) {
    done(begin(STATE), GABRO_WAITING);
    assert(is_owner(0, 1, GABRO_MENU, GABRO_NO_INDEX, GABRO_NO_INDEX, GABRO_NO_INDEX, GABRO_NO_INDEX));
    assert(is_owner(2, 1, GABRO_BUTTON, 0, GABRO_NO_INDEX, GABRO_NO_INDEX, GABRO_NO_INDEX));
    done(gabro_resize(&session, WIDTH, 2 * HEIGHT), GABRO_WAITING);
    done(press("shift-F"), GABRO_WAITING);
    assert(is_owner(4, 1, GABRO_MARK, 0, 0, GABRO_NO_INDEX, GABRO_NO_INDEX));
    assert(is_owner(4, 8, GABRO_FILE, 0, 0, GABRO_NO_INDEX, GABRO_NO_INDEX));
    assert(is_owner(5, 1, GABRO_SECTION, 0, 0, 0, GABRO_NO_INDEX));
    assert(is_owner(5, WIDTH - 2, GABRO_FOLD, 0, 0, 0, GABRO_NO_INDEX));
    assert(is_owner(6, 5, GABRO_MARK, 0, 0, 0, 0));
    assert(is_owner(6, 10, GABRO_ADDED, 0, 0, 0, 0));
}

/* Bytes mean what their words do, in any pieces; an ESC is a key once the terminal is silent. */
static void take_bytes(void) {
    done(begin(STATE), GABRO_WAITING);
    done(press("right"), GABRO_WAITING);
    standing pressed = before;
    done(begin(STATE), GABRO_WAITING);
    for (const char *byte = "\x1b[C"; *byte; byte++) {
        done(gabro_type(&session, byte, 1), GABRO_WAITING);
    }
    assert(is_same(&pressed, &before));
    done(type("\x1b[200~ jq\x03\x03\x1b[201~"), GABRO_WAITING);
    done(gabro_type(&session, "", 0), GABRO_WAITING);
    assert(is_same(&pressed, &before));
    done(type("ejj"), GABRO_EDITING); /* what is typed ahead is lost */
    done(answer("hello"), GABRO_WAITING);
    pressed = before;
    done(type("?\x1b"), GABRO_WAITING);
    assert(!is_same(&pressed, &before) && gabro_dialog(&session) == GABRO_HELP);
    done(gabro_idle(&session), GABRO_WAITING);
    assert(is_same(&pressed, &before)); /* the help was open, and is closed */
    assert(gabro_dialog(&session) == GABRO_NO_DIALOG);
    done(press("q"), GABRO_WAITING);
    assert(gabro_dialog(&session) == GABRO_QUESTION);
    done(press("esc"), GABRO_WAITING);
    done(gabro_idle(&session), GABRO_WAITING);
    done(type("\x03\x03"), GABRO_ENDED);
    assert(reads("cancelled by user") && gabro_dialog(&session) == GABRO_NO_DIALOG);
}

/* The status row is told as the rows above it are: by its symbols, and as the last row of the text. It takes memory to tell it. */
static void tell_status_row(void) {
    static const char row[] = "\"f   lines: 1, files: 1  \"\n";
    char symbol[8] = "zz";
    assert(before.length > HEIGHT * (WIDTH + 3) && memcmp(before.text + before.length - (WIDTH + 3), row, WIDTH + 3) == 0);
    for (uint16_t column = 0; column < WIDTH; column++) {
        assert(gabro_symbol(&session, HEIGHT, column, symbol, sizeof symbol) == 1 && symbol[0] == row[column + 1] && symbol[1] == 'z');
    }
    assert(gabro_symbol(&session, HEIGHT, WIDTH, symbol, sizeof symbol) == 0 && gabro_symbol(&session, HEIGHT + 1, 0, symbol, sizeof symbol) == 0);
#ifdef __GLIBC__
    size_t length = 77;
    is_refused = true;
    size_t on_status_row = gabro_symbol(&session, HEIGHT, 4, symbol, sizeof symbol), above_it = gabro_symbol(&session, 0, 1, symbol, 1);
    uint32_t code_of_text = gabro_text(&session, symbol, sizeof symbol, &length);
    is_refused = false;
    assert(on_status_row == 0 && above_it == 1 && symbol[0] == 'F' && code_of_text == GABRO_NO_MEMORY && length == 77);
#endif
}

/* With a layer, keys, clicks and places are those of the terminal, whose last row is the status row. */
static void take_layer(void) {
    gabro_key key = {0, 0, 0, 0};
    char out[2048];
    size_t length = strlen(STATE);
    done(gabro_new_layer(&session, STATE, length, WIDTH, HEIGHT + 1), GABRO_WAITING);
    assert(is_owner(2, 1, GABRO_BUTTON, 0, GABRO_NO_INDEX, GABRO_NO_INDEX, GABRO_NO_INDEX));
    assert(owner(HEIGHT, 0).code == GABRO_NOBODY);
    tell_status_row();
    refuse_logged(GABRO_NOT_NOW);
    refused(gabro_log(&session), GABRO_DONE);
    check_logged("size 24 4\n");
    refused(gabro_begin_layer(&session, WIDTH, HEIGHT), GABRO_NOT_NOW);
    refused(gabro_theme(&session, GABRO_NO_COLOURS + 1), GABRO_NO_NUMBER);
    refused(gabro_accept_text(&session, "\xff", 1), GABRO_NOT_TEXT);
    refused(gabro_start(&session, GABRO_OPEN_IF_IT_FITS + 1, &key), GABRO_NO_NUMBER);
    refused(gabro_keys(&session, "x=undo x", 8), GABRO_NO_KEY);
    refused(gabro_keys(&session, "=j", 2), GABRO_NO_KEY);
    refused(gabro_theme(&session, GABRO_NO_COLOURS), GABRO_DONE);
    done(gabro_accept_text(&session, "c stages", 8), GABRO_WAITING); /* the status row says so, if it has room */
    refused(gabro_keys(&session, "ctrl-x=j  x=undo", 16), GABRO_DONE);
    done(gabro_start(&session, GABRO_ALL_OPEN, &key), GABRO_WAITING);
    assert(ask_selected(&key) == GABRO_DONE && key.file == 0 && key.section == 0 && key.line == 0);
    length = paint(out, sizeof out);
    assert(length < sizeof out && memmem(out, length, "lines: 1", 8) != NULL);
    assert(paint(out, sizeof out) < length);
    refused(gabro_label(&session, 0, 0, "\xff", 1), GABRO_NOT_TEXT);
    refused(gabro_label(&session, 0, 0, "ours", 4), GABRO_DONE);
    size_t labelled = paint(out, sizeof out);
    assert(labelled < length && memmem(out, labelled, "ours", 4) != NULL);
    refused(gabro_label(&session, SIZE_MAX, SIZE_MAX, "", 0), GABRO_DONE);
    done(gabro_repaint(&session), GABRO_WAITING);
    assert(paint(out, sizeof out) >= length);
    uint32_t mark = 77;
    done(type(" "), GABRO_WAITING);
    assert(gabro_mark(&session, &key, &mark) == GABRO_DONE && mark == GABRO_UNCHECKED);
    done(type("x"), GABRO_WAITING);
    assert(gabro_mark(&session, &key, &mark) == GABRO_DONE && mark == GABRO_CHECKED);
    uint32_t own_key = 77;
    size_t taken = 77;
    done(type("/"), GABRO_WAITING);
    done(gabro_type_to_key(&session, "\tF", 2, &taken, &own_key), GABRO_WAITING);
    assert(taken == 1 && own_key == 0);
    done(type("F\r"), GABRO_WAITING);
    assert(ask_selected(&key) == GABRO_DONE && key.line == 0);
    done(gabro_type_to_key(&session, "\tj", 2, &taken, &own_key), GABRO_WAITING);
    assert(taken == 1 && own_key == 9);
    done(press_all("k k j"), GABRO_WAITING);
    done(gabro_resize(&session, WIDTH + 4, HEIGHT + 3), GABRO_WAITING);
    done(type("e"), GABRO_EDITING);
    refused(gabro_theme(&session, GABRO_DARK), GABRO_DONE);
    refused(gabro_keys(&session, "x=undo", 6), GABRO_NOT_NOW);
    check_logged("size 24 4\nbatch shift-F \nselect 0 0 0\nbatch space \n");
    refused(gabro_log(&session), GABRO_NOT_NOW);
    done(answer("bye"), GABRO_WAITING);
    check_logged("size 24 4\nbatch shift-F \nselect 0 0 0\nbatch space \n");
    done(press("c"), GABRO_ACCEPTED);
    refuse_layer(GABRO_NOT_NOW);
    check_logged("size 24 4\nbatch shift-F \nselect 0 0 0\nbatch space \n");
    done(gabro_state_new(&session, false), GABRO_BUILDING);
    refused(gabro_theme(&session, GABRO_DARK), GABRO_NOT_NOW);
    done(gabro_begin_layer(&session, WIDTH, HEIGHT), GABRO_WAITING);
    refused(gabro_log(&session), GABRO_DONE);
#ifdef __GLIBC__
    is_refused = true;
    uint32_t code_of_logged = gabro_logged(&session, out, sizeof out, &length);
    uint32_t code_of_size = gabro_resize(&session, UINT16_MAX, UINT16_MAX), code_of_keys = gabro_keys(&session, "x=undo", 6);
    uint32_t code_of_words = gabro_accept_text(&session, "c", 1), code_of_label = gabro_label(&session, 0, 0, "c", 1), code_of_paint = gabro_paint(&session, out, sizeof out, &length);
    is_refused = false;
    refused(code_of_size, GABRO_NO_MEMORY);
    refused(code_of_keys, GABRO_NO_MEMORY);
    refused(code_of_words, GABRO_NO_MEMORY);
    refused(code_of_label, GABRO_NO_MEMORY);
    refused(code_of_paint, GABRO_NO_MEMORY);
    refused(code_of_logged, GABRO_NO_MEMORY);
#endif
    done(type("q"), GABRO_ENDED);
}

/* Sections show the line that they are in. Where memory for that fails, the call says so, and can be made again. A label stays. */
static void name_sections(void) {
    static const char old[] = "f() {\n  1\n}\n", now[] = "f() {\n  2\n}\n", named[] = "Section 1/1  f() {";
    gabro_key none = {GABRO_NO_INDEX, GABRO_NO_INDEX, GABRO_NO_INDEX, GABRO_NO_INDEX};
    char out[8192];
    done(gabro_state_new(&session, false), GABRO_BUILDING);
    done(gabro_state_texts(&session, "f", 1, "", 0, old, strlen(old), 0100644, now, strlen(now), 0100644), GABRO_BUILDING);
    refused(gabro_name_sections(&session), GABRO_NOT_NOW);
    done(gabro_begin_layer(&session, 40, 12), GABRO_WAITING);
    done(gabro_start(&session, GABRO_ALL_OPEN, &none), GABRO_WAITING);
    size_t length = paint(out, sizeof out);
    assert(length < sizeof out && memmem(out, length, "Section 1/1", 11) && !memmem(out, length, named, strlen(named)));
#ifdef __GLIBC__
    is_refused = true;
    uint32_t code = gabro_name_sections(&session);
    is_refused = false;
    refused(code, GABRO_NO_MEMORY);
#endif
    refused(gabro_name_sections(&session), GABRO_DONE);
    length = paint(out, sizeof out);
    assert(length < sizeof out && memmem(out, length, named, strlen(named)));
    refused(gabro_label(&session, 0, 1, "ours", 4), GABRO_DONE);
    refused(gabro_name_sections(&session), GABRO_DONE);
    length = paint(out, sizeof out);
    assert(length < sizeof out && memmem(out, length, "ours", 4) && !memmem(out, length, named, strlen(named)));
    done(type("q"), GABRO_ENDED);
}

/* Whether a pager is open on the first file, with this line on its first row. */
static bool is_page(const gabro_pager *pager, size_t top, bool selected) {
    return pager->is_open && pager->file == 0 && pager->top == top && pager->left == 0 && pager->selected == selected;
}

/* A pager opens on a file that is there, hears keys and paints, and no call changes the session. A call that is refused writes nothing. */
static void show_pages(void) {
    char out[] = "............";
    size_t length = 77;
    gabro_pager pager = {7, 77, 7, true, true};
    done(gabro_state_new(&session, false), GABRO_BUILDING);
    refused(gabro_pager_open(&session, 0, false, &pager), GABRO_NO_ITEM);
    refused(gabro_pager_show(&session, &pager, 0, 0, 2), GABRO_NO_ITEM);
    refused(gabro_pager_type(&session, &pager, "p", 1, 20, 2), GABRO_NO_ITEM);
    refused(gabro_pager_paint(&session, &pager, 20, 2, out, sizeof out, &length), GABRO_NO_ITEM);
    assert(pager.file == 7 && pager.top == 77 && pager.left == 7 && pager.selected && pager.is_open && length == 77 && strcmp(out, "............") == 0);
    done(gabro_state_file(&session, "f", 1, "", 0, 0100644), GABRO_BUILDING);
    done(gabro_state_changes(&session, true, true, "a\nb\nc\n", 6), GABRO_BUILDING);
    done(gabro_begin(&session, WIDTH, HEIGHT), GABRO_WAITING);
    refused(gabro_pager_open(&session, 0, true, &pager), GABRO_DONE);
    assert(is_page(&pager, 0, true));
    refused(gabro_pager_show(&session, &pager, 0, 1, 2), GABRO_DONE);
    assert(is_page(&pager, 1, true));
    refused(gabro_pager_type(&session, &pager, "jj", 2, 20, 2), GABRO_DONE);
    assert(is_page(&pager, 2, true));
    refused(gabro_pager_paint(&session, &pager, 20, 2, out, 4, &length), GABRO_DONE);
    assert(length > sizeof out && strcmp(out, "\x1b[?2........") == 0);
#ifdef __GLIBC__
    is_refused = true;
    length = 77;
    uint32_t code_of_type = gabro_pager_type(&session, &pager, "P", 1, 20, 2), code_of_paint = gabro_pager_paint(&session, &pager, 20, 2, out, 8, &length);
    is_refused = false;
    refused(code_of_type, GABRO_NO_MEMORY);
    refused(code_of_paint, GABRO_NO_MEMORY);
    assert(is_page(&pager, 2, true) && length == 77 && strcmp(out, "\x1b[?2........") == 0);
#endif
    refused(gabro_pager_type(&session, &pager, "P", 1, 20, 2), GABRO_DONE);
    assert(is_page(&pager, 0, false));
    refused(gabro_pager_type(&session, &pager, "\x1b", 1, 20, 2), GABRO_DONE);
    assert(!pager.is_open);
    done(press("c"), GABRO_ACCEPTED);
    refused(gabro_pager_open(&session, 0, true, &pager), GABRO_DONE);
    gabro_free(&session);
    before = look();
    refused(gabro_pager_open(&session, 0, true, &pager), GABRO_CLOSED);
    assert(is_page(&pager, 0, true));
}

/* A line is as it is handed in, and is read again; marks are those of the file, in its order. */
static void tell_lines(void) {
    char text[8] = ".......", marks[8] = ".......";
    size_t length = 77;
    gabro_key key = {GABRO_NO_INDEX, 0, 1, 1}, nowhere = {GABRO_NO_INDEX, 0, 0, 2}, header = {GABRO_NO_INDEX, 0, 0, GABRO_NO_INDEX};
    done(gabro_state_new(&session, false), GABRO_BUILDING);
    refused(gabro_state_line(&session, true, true, true, "a", 1), GABRO_NO_ITEM);
    refused(gabro_marks(&session, 0, marks, sizeof marks, &length), GABRO_NO_ITEM);
    done(gabro_state_file(&session, "f", 1, "", 0, 0100644), GABRO_BUILDING);
    refused(gabro_state_line(&session, false, false, false, "\xff", 1), GABRO_NOT_TEXT);
    done(gabro_state_line(&session, false, false, false, "", 0), GABRO_BUILDING);
    done(gabro_state_line(&session, false, false, false, "a", 1), GABRO_BUILDING);
    done(gabro_state_line(&session, true, false, false, "a\n", 2), GABRO_BUILDING);
    done(gabro_state_line(&session, true, true, true, "b\nc", 3), GABRO_BUILDING);
    done(gabro_state_mode(&session, true, 0100755), GABRO_BUILDING);
    refused(gabro_line(&session, &nowhere, text, sizeof text, &length), GABRO_NO_ITEM);
    refused(gabro_line(&session, &header, text, sizeof text, &length), GABRO_NO_ITEM);
    refused(gabro_marks(&session, 1, marks, sizeof marks, &length), GABRO_NO_ITEM);
    assert(length == 77 && strcmp(text, ".......") == 0 && strcmp(marks, ".......") == 0);
    done(gabro_line(&session, &key, text, 2, &length), GABRO_BUILDING);
    assert(length == 3 && strcmp(text, "b\n.....") == 0);
    done(gabro_marks(&session, 0, marks, sizeof marks, &length), GABRO_BUILDING);
    assert(length == 3 && memcmp(marks, "\0\1\1....", 7) == 0);
#ifdef __GLIBC__
    is_refused = true;
    uint32_t code_of_marks = gabro_marks(&session, 0, marks, sizeof marks, &length);
    uint32_t code_of_line = gabro_state_line(&session, true, true, true, "d", 1);
    is_refused = false;
    refused(code_of_marks, GABRO_NO_MEMORY);
    refused(code_of_line, GABRO_NO_MEMORY);
#endif
    close_session();
    refused(gabro_state_line(&session, true, true, true, "a", 1), GABRO_CLOSED);
    refused(gabro_marks(&session, 0, marks, sizeof marks, &length), GABRO_CLOSED);
    refused(gabro_line(&session, &key, text, sizeof text, &length), GABRO_CLOSED);
    assert(length == 3);
}

/* A file by its two versions is refused if a path is no text, or if a path or a line is too long; a byte that is not UTF-8 counts four. */
static void refuse_texts(void) {
    static char line[LONGEST_MESSAGE + 1];
    memset(line, 'm', sizeof line);
    refused(gabro_state_texts(&session, "\xff", 1, "", 0, "a", 1, 0100644, "b", 1, 0100644), GABRO_NOT_TEXT);
    refused(gabro_state_texts(&session, "f", 1, "\xff", 1, "a", 1, 0100644, "b", 1, 0100644), GABRO_NOT_TEXT);
    refused(gabro_state_texts(&session, line, sizeof line, "", 0, "a", 1, 0100644, "b", 1, 0100644), GABRO_TOO_LONG);
    refused(gabro_state_texts(&session, "f", 1, line, sizeof line, "a", 1, 0100644, "b", 1, 0100644), GABRO_TOO_LONG);
    refused(gabro_state_texts(&session, "f", 1, "", 0, line, sizeof line, 0100644, "b", 1, 0100644), GABRO_TOO_LONG);
    refused(gabro_state_texts(&session, "f", 1, "", 0, "a", 1, 0100644, line, sizeof line, 0100644), GABRO_TOO_LONG);
    memset(line, 0xff, sizeof line);
    refused(gabro_state_texts(&session, "f", 1, "", 0, "a", 1, 0100644, line, LONGEST_MESSAGE / 4 + 1, 0100644), GABRO_TOO_LONG);
}

/* A file by its two versions has the lines that differ, and its sides are the two versions, byte for byte. */
static void take_texts(void) {
    char text[8] = ".......";
    size_t length = 77;
    gabro_key removed = {GABRO_NO_INDEX, 0, 1, 0};
    done(gabro_state_new(&session, false), GABRO_BUILDING);
    refuse_texts();
    refused(gabro_side_bytes(&session, 0, true, text, sizeof text, &length), GABRO_NO_ITEM);
    done(gabro_state_texts(&session, "f", 1, "e", 1, "a\nb", 3, 0100644, "a\nc\n", 4, 0100644), GABRO_BUILDING);
    done(gabro_state_texts(&session, "g", 1, "", 0, "old", 3, GABRO_ABSENT, "x\xff\0", 3, 0100644), GABRO_BUILDING);
    // versions that are equal have nothing to mark
    done(gabro_state_texts(&session, "s", 1, "", 0, "same", 4, 0100644, "same", 4, 0100644), GABRO_BUILDING);
    assert(gabro_marks(&session, 2, text, sizeof text, &length) == GABRO_DONE && length == 0);
    assert(gabro_side_bytes(&session, 2, false, text, sizeof text, &length) == GABRO_DONE && length == 4 && memcmp(text, "same", 4) == 0);
    strcpy(text, ".......");
    done(gabro_line(&session, &removed, text, sizeof text, &length), GABRO_BUILDING);
    assert(length == 1 && text[0] == 'b');
#ifdef __GLIBC__
    is_refused = true;
    uint32_t code = gabro_state_texts(&session, "h", 1, "", 0, "a", 1, 0100644, "b", 1, 0100644);
    uint32_t code_of_side = gabro_side_bytes(&session, 0, true, text, sizeof text, &length);
    is_refused = false;
    refused(code, GABRO_NO_MEMORY);
    refused(code_of_side, GABRO_NO_MEMORY);
#endif
    done(gabro_begin(&session, WIDTH, HEIGHT), GABRO_WAITING);
    refused(gabro_state_texts(&session, "h", 1, "", 0, "a", 1, 0100644, "b", 1, 0100644), GABRO_NOT_NOW);
    assert(gabro_side_bytes(&session, 0, true, text, sizeof text, &length) == GABRO_DONE && length == 3 && memcmp(text, "a\nb", 3) == 0);
    done(press("a"), GABRO_WAITING);
    assert(gabro_side_bytes(&session, 0, true, text, 3, &length) == GABRO_DONE && length == 4 && memcmp(text, "a\nc", 3) == 0);
    assert(gabro_side_bytes(&session, 1, true, text, sizeof text, &length) == GABRO_DONE && length == 3 && memcmp(text, "x\xff", 3) == 0);
    assert(gabro_side_bytes(&session, 1, false, text, sizeof text, &length) == GABRO_DONE && length == 0);
    close_session();
    refused(gabro_state_texts(&session, "h", 1, "", 0, "a", 1, 0100644, "b", 1, 0100644), GABRO_CLOSED);
    refused(gabro_side_bytes(&session, 0, true, text, sizeof text, &length), GABRO_CLOSED);
}

/* Of a window above the limit the screen has the limit. */
static void cut_window(void) {
    done(gabro_state_new(&session, false), GABRO_BUILDING);
    done(gabro_begin(&session, UINT16_MAX, 1), GABRO_WAITING);
    assert(before.length == GABRO_MAX_COLUMNS + 3);
    done(gabro_resize(&session, 1, UINT16_MAX), GABRO_WAITING);
    char symbol[4];
    assert(gabro_symbol(&session, GABRO_MAX_ROWS - 1, 0, symbol, sizeof symbol) == 1);
    assert(gabro_symbol(&session, GABRO_MAX_ROWS, 0, symbol, sizeof symbol) == 0);
    close_session();
}

/* A paint writes every row, or nothing, or what changed; without room it writes nothing, and every row then. */
static void paint_rows(void) {
    static char all[1 << 14], again[1 << 14];
    done(begin(STATE), GABRO_WAITING);
    size_t length = paint(all, sizeof all);
    assert(length > WIDTH * HEIGHT && length < sizeof all);
    assert(memcmp(all, "\x1b[?2026h\x1b[?7l", 13) == 0 && memcmp(all + length - 17, "\x1b[?7h\x1b[0m\x1b[?2026l", 17) == 0);
    again[0] = 7;
    assert(paint(again, sizeof again) == 0 && again[0] == 7);
    assert(gabro_repaint(&session) == GABRO_DONE);
    assert(paint(again, length - 1) == length && again[0] == 7);
    assert(paint(again, length) == length && memcmp(all, again, length) == 0);
    done(press("j"), GABRO_WAITING);
    size_t changed = paint(again, sizeof again);
    again[changed] = 0;
    assert(changed > 0 && !strstr(again, "\x1b[1;1H") && strstr(again, "\x1b[4;1H")); /* the menus stay, the file is selected */
    done(gabro_resize(&session, WIDTH, HEIGHT + 1), GABRO_WAITING);
    assert(paint(again, sizeof again) > length);
#ifdef __GLIBC__
    is_refused = true;
    size_t nothing = 77, painted = 77;
    uint32_t code_of_text = gabro_text(&session, again, sizeof again, &nothing);
    uint32_t code_of_paint = gabro_paint(&session, again, sizeof again, &painted);
    is_refused = false;
    assert(code_of_text == GABRO_NO_MEMORY && code_of_paint == GABRO_NO_MEMORY && nothing == 77 && painted == 77);
    assert(paint(again, sizeof again) > length);
#endif
}

/* What does not fit is cut, and nothing is written behind it. */
static void cut_text(void) {
    char text[] = "............";
    size_t length = 0;
    assert(gabro_text(&session, text, 0, &length) == GABRO_DONE && length == before.length && strcmp(text, "............") == 0);
    length = 0;
    assert(gabro_text(&session, text, 7, &length) == GABRO_DONE && length == before.length && strcmp(text, "\"[File]" ".....") == 0);
}

static void refuse_messages(void) {
    static char message[LONGEST_MESSAGE + 1];
    memset(message, 'm', sizeof message);
    done(press("e"), GABRO_EDITING);
    assert(reads("hello"));
    refused(press("j"), GABRO_NOT_NOW);
    refused(type("j"), GABRO_NOT_NOW);
    refused(gabro_idle(&session), GABRO_NOT_NOW);
    refuse_paint(GABRO_DONE);
    refused(gabro_click(&session, 1, 1), GABRO_NOT_NOW);
    refused(gabro_resize(&session, WIDTH, HEIGHT), GABRO_NOT_NOW);
    refused(answer("\xe6\x97"), GABRO_NOT_TEXT);
    refused(gabro_answer(&session, message, LONGEST_MESSAGE + 1), GABRO_TOO_LONG);
#ifdef __GLIBC__
    is_refused = true;
    uint32_t code = answer("bye");
    is_refused = false;
    refused(code, GABRO_NO_MEMORY);
#endif
    done(gabro_answer(&session, message, LONGEST_MESSAGE), GABRO_WAITING);
    done(press("e"), GABRO_EDITING);
    assert(before.length == LONGEST_MESSAGE && before.text[0] == 'm');
    done(answer(""), GABRO_WAITING);
}

/* A state that is made by calls stays as it was where a call is refused, and grows no more once the session has begun. */
static void refuse_additions(void) {
    static char line[LONGEST_MESSAGE + 1];
    size_t count = 77;
    memset(line, 'm', sizeof line);
    done(gabro_state_new(&session, false), GABRO_BUILDING);
    refused(gabro_state_context(&session, "a", 1), GABRO_NO_ITEM);
    done(gabro_state_file(&session, "f", 1, "", 0, 0100644), GABRO_BUILDING);
    refused(gabro_state_context(&session, "\xff", 1), GABRO_NOT_TEXT);
    refused(gabro_state_changes(&session, true, true, line, sizeof line), GABRO_TOO_LONG);
    done(gabro_state_commit(&session), GABRO_BUILDING);
    done(gabro_state_message(&session, line, LONGEST_MESSAGE), GABRO_BUILDING);
    refused(gabro_state_commit(&session), GABRO_NOT_ACCEPTED);
    refuse_calls(GABRO_NOT_NOW);
#ifdef __GLIBC__
    is_refused = true;
    uint32_t code = gabro_state_file(&session, "g", 1, "", 0, 0100644);
    is_refused = false;
    refused(code, GABRO_NO_MEMORY);
#endif
    assert(gabro_files(&session, &count) == GABRO_DONE && count == 1);
    done(gabro_begin(&session, WIDTH, HEIGHT), GABRO_WAITING);
    refused(gabro_begin(&session, WIDTH, HEIGHT), GABRO_NOT_NOW);
    refused(gabro_state_context(&session, "a", 1), GABRO_NOT_NOW);
    close_session();
    refused(gabro_state_context(&session, "a", 1), GABRO_CLOSED);
    refused(gabro_begin(&session, WIDTH, HEIGHT), GABRO_CLOSED);
    refused(gabro_files(&session, &count), GABRO_CLOSED);
#ifdef __GLIBC__
    done(gabro_state_new(&session, false), GABRO_BUILDING);
    is_refused = true;
    code = gabro_begin(&session, WIDTH, HEIGHT);
    is_refused = false;
    assert(code == GABRO_NO_MEMORY && gabro_stage(&session) == GABRO_ENDED);
    close_session();
#endif
}

/* Once it has ended a session stays so until it is closed. */
static void refuse_after_the_end(void) {
    done(press("c"), GABRO_ACCEPTED);
    assert(before.end == GABRO_END_ACCEPTED);
    assert(before.length > 9 && memcmp(before.text, "accepted\n", 9) == 0);
    refuse_calls(GABRO_NOT_NOW);
    done(begin(STATE), GABRO_WAITING);
    done(press("ctrl-c"), GABRO_WAITING);
    done(press("ctrl-c"), GABRO_ENDED);
    assert(before.end == GABRO_END_CANCELLED && reads("cancelled by user"));
    refuse_calls(GABRO_NOT_NOW);
#ifdef __GLIBC__
    done(begin(STATE), GABRO_WAITING);
    is_refused = true;
    uint32_t code = press("shift-F");
    is_refused = false;
    done(code, GABRO_ENDED);
    assert(before.end == GABRO_END_NO_MEMORY && reads("out of memory"));
#endif
    close_session();
}

/* ---- Input that ends a session for want of memory ---- */

#ifdef __GLIBC__
static uint32_t type_to_key(const char *bytes) {
    size_t taken;
    uint32_t key;
    return gabro_type_to_key(&session, bytes, strlen(bytes), &taken, &key);
}

/* Refuses one allocation after another of a call that unfolds all. A call of input does not say GABRO_NO_MEMORY for what it handles: it is
 * done, and the session has ended. Returns whether that was seen. */
static bool ends_by_memory(uint32_t call(const char *input), const char *input) {
    bool has_ended = false;
    for (long count = 0; count < 50; count++) {
        done(begin(STATE), GABRO_WAITING);
        granted = count;
        is_refused = true;
        uint32_t code = call(input);
        is_refused = false;
        granted = 0;
        uint32_t stage = gabro_stage(&session);
        assert(code == GABRO_DONE ? stage == GABRO_WAITING || stage == GABRO_ENDED : code == GABRO_NO_MEMORY && stage == GABRO_WAITING);
        assert(stage == GABRO_WAITING || gabro_end(&session) == GABRO_END_NO_MEMORY);
        has_ended = has_ended || stage == GABRO_ENDED;
        close_session();
    }
    return has_ended;
}

static void end_by_memory(void) {
    assert(ends_by_memory(press, "shift-F"));
    assert(ends_by_memory(press_all, "shift-F"));
    assert(ends_by_memory(press_and_count, "shift-F"));
    assert(ends_by_memory(type, "F"));
    assert(ends_by_memory(type_to_key, "F"));
}
#else
static void end_by_memory(void) {}
#endif

/* Asks for an item, for a path and for a message, and looks that a call that is refused wrote nothing. */
static void ask_structure(const gabro_key *key, uint32_t code_of_item, bool is_old, uint32_t code_of_path, size_t commit, uint32_t code_of_message) {
    uint32_t kind = 77;
    size_t parts = 77, length = 77;
    char out[] = "............";
    refused(gabro_item(&session, key, &kind, &parts), code_of_item);
    assert(code_of_item == GABRO_DONE ? kind == GABRO_FILE && parts == 1 : kind == 77 && parts == 77);
    refused(gabro_path(&session, key->file, is_old, out, sizeof out, &length), code_of_path);
    assert(code_of_path == GABRO_DONE ? length == 1 && strcmp(out, "f...........") == 0 : length == 77 && strcmp(out, "............") == 0);
    out[0] = '.';
    length = 77;
    refused(gabro_message(&session, commit, out, 2, &length), code_of_message);
    assert(code_of_message == GABRO_DONE ? length == 5 && strcmp(out, "he..........") == 0 : length == 77 && strcmp(out, "............") == 0);
}

/* The structure of a state, and marks that are handed in, at the stages at which they are refused, and where they are not. */
static void tell_structure(void) {
    gabro_key first = {0, 0, GABRO_NO_INDEX, GABRO_NO_INDEX}, none = {0, 1, GABRO_NO_INDEX, GABRO_NO_INDEX}, line = {0, 0, 0, 1};
    assert(gabro_version() == GABRO_VERSION);
    before = look();
    ask_structure(&first, GABRO_CLOSED, false, GABRO_CLOSED, 0, GABRO_CLOSED);
    refused(gabro_state_section(&session, true), GABRO_CLOSED);
    refused(gabro_state_marks(&session, 0, "\1", 1), GABRO_CLOSED);
    done(begin(STATE), GABRO_WAITING);
    ask_structure(&first, GABRO_DONE, false, GABRO_DONE, 0, GABRO_DONE);
    ask_structure(&none, GABRO_NO_ITEM, false, GABRO_NO_ITEM, 2, GABRO_NO_ITEM);
    ask_structure(&line, GABRO_NO_ITEM, true, GABRO_NO_ITEM, 1, GABRO_NO_ITEM);
    refused(gabro_state_section(&session, true), GABRO_NOT_NOW);
    refused(gabro_state_marks(&session, 0, "\1", 1), GABRO_NOT_NOW);
    done(press("e"), GABRO_EDITING);
    ask_structure(&first, GABRO_NOT_NOW, false, GABRO_NOT_NOW, 0, GABRO_NOT_NOW);
    done(gabro_state_new(&session, false), GABRO_BUILDING);
    refused(gabro_state_section(&session, true), GABRO_NO_ITEM);
    refused(gabro_state_marks(&session, 0, NULL, 0), GABRO_NO_ITEM);
    done(gabro_state_file(&session, "f", 1, "", 0, 0100644), GABRO_BUILDING);
    done(gabro_state_section(&session, true), GABRO_BUILDING);
    done(gabro_state_changes(&session, true, false, "a\nb\n", 4), GABRO_BUILDING);
    refused(gabro_state_marks(&session, 0, "\1", 1), GABRO_NO_ITEM);
    refused(gabro_state_marks(&session, 1, NULL, 0), GABRO_NO_ITEM);
    char marks[3] = {7, 7, 7};
    size_t count = 77;
    assert(gabro_marks(&session, 0, marks, sizeof marks, &count) == GABRO_DONE && count == 2 && memcmp(marks, "\0\0\7", 3) == 0);
    done(gabro_state_marks(&session, 0, "\2\1", 2), GABRO_BUILDING);
    assert(gabro_marks(&session, 0, marks, sizeof marks, &count) == GABRO_DONE && count == 2 && memcmp(marks, "\0\1\7", 3) == 0);
    close_session();
}

/* A run on a file that is no terminal, or on none: the call says so, and the session is as it was. */
static void refuse_terminals(void) {
    int nowhere = open("/dev/null", O_RDWR);
    assert(nowhere >= 0);
    done(begin(STATE), GABRO_WAITING);
    int end = gabro_run_with(&session, nowhere, NULL, NULL), error = errno;
    assert(end == -1 && error == ENOTTY);
    refused(GABRO_DONE, GABRO_DONE);
    close(nowhere);
    end = gabro_run(&session, -1, NULL), error = errno;
    assert(end == -1 && error == EBADF);
    refused(GABRO_DONE, GABRO_DONE);
    close_session();
}

/* ---- Null pointers, where the length is 0 ---- */

static void take_null(void) {
    size_t length = 77;
    gabro_side_info side;
    done(gabro_state_new(&session, false), GABRO_BUILDING);
    done(gabro_state_message(&session, NULL, 0), GABRO_BUILDING);
    done(gabro_state_texts(&session, "f", 1, NULL, 0, NULL, 0, GABRO_ABSENT, "1\n", 2, 0100644), GABRO_BUILDING);
    done(gabro_state_file(&session, "g", 1, NULL, 0, 0100644), GABRO_BUILDING);
    done(gabro_state_context(&session, NULL, 0), GABRO_BUILDING);
    done(gabro_state_changes(&session, true, false, NULL, 0), GABRO_BUILDING);
    done(gabro_state_line(&session, true, true, false, NULL, 0), GABRO_BUILDING);
    done(gabro_state_binary(&session, false, NULL, 0, NULL, 0), GABRO_BUILDING);
    done(gabro_begin(&session, WIDTH, HEIGHT), GABRO_WAITING);
    done(gabro_type(&session, NULL, 0), GABRO_WAITING);
    done(gabro_press_all(&session, NULL, 0), GABRO_WAITING);
    handled = 77;
    done(gabro_press_and_count(&session, NULL, 0, &handled), GABRO_WAITING);
    assert(handled == 0);
    refused(gabro_press(&session, NULL, 0), GABRO_NO_WORD);
    done(gabro_text(&session, NULL, 0, &length), GABRO_WAITING);
    assert(length == before.length && gabro_words(GABRO_DONE, NULL, 0) > 0 && gabro_symbol(&session, 0, 0, NULL, 0) > 0);
    done(gabro_side(&session, 0, false, NULL, 0, &side), GABRO_WAITING);
    assert(side.contents == GABRO_SIDE_TEXT && side.length == 2);
    done(gabro_marks(&session, 0, NULL, 0, &length), GABRO_WAITING);
    assert(length == 2);
    done(gabro_paint(&session, NULL, 0, &length), GABRO_WAITING);
    assert(length > 0);
    done(press("e"), GABRO_EDITING);
    done(gabro_answer(&session, NULL, 0), GABRO_WAITING);
    handled = 77;
    done(press("e"), GABRO_EDITING);
    done(gabro_answer_and_count(&session, NULL, 0, &handled), GABRO_WAITING);
    assert(handled == 0);
    close_session();
}

/* ---- From tree to tree ---- */

/* Looks that what is decided of rows is `wanted`, `length` bytes, also in a buffer that is too short. */
static void decides(const char *rows, size_t count, const char *wanted, size_t length) {
    char out[256];
    size_t written = 77;
    memset(out, 'z', sizeof out);
    assert(gabro_decide_rows(rows, count, out, sizeof out, &written) == GABRO_DONE);
    assert(written == length && memcmp(out, wanted, length) == 0 && out[length] == 'z');
    memset(out, 'z', sizeof out);
    assert(gabro_decide_rows(rows, count, out, 1, &written) == GABRO_DONE && written == length && out[1] == 'z');
}

/* The bytes of a literal, also the zero behind it, which ends its last record. */
#define ALL(literal) literal, sizeof(literal)

/* What becomes of paths: a file makes room for another one, or is in its way. */
static void decide_paths(void) {
    size_t written = 77;
    decides(ALL("-nn a/b\0o-- a\0o-= c"), ALL("- a\0n a/b"));
    decides(ALL("-nn a/b\0o-o a\0o-= c"), ALL("o a\0- a/b\0x a/b\0y a"));
    decides(ALL("o-- b\0-nn+b/c\0o-= a\0-nc a/d"), ALL("- a/d\0- b\0n b/c\0x a/d\0y a"));
    decides(ALL("onc f\0on= g\0onn h"), ALL("c f\0n h"));
    decides(ALL("onn f\0onn f"), ALL("2 f"));
    decides(ALL("-nn .GIT/f"), ALL("! .GIT/f"));
    decides(ALL("on= a\0on= a/b"), ALL("/ "));
    decides(ALL("o-o a\0-nn+b"), ALL("+ b"));
    decides(ALL("--- a"), ALL("# --- a"));
    decides(ALL("o-n a"), ALL("# o-n a"));
    decides(ALL("o--+a"), ALL("# o--+a"));
    decides("onn", 3, ALL("# onn"));
    assert(gabro_decide_rows(NULL, 0, NULL, 0, &written) == GABRO_DONE && written == 0);
}

#ifdef __GLIBC__
/* Refuses one allocation after another of a decision: it says so, or all is decided. */
static void decide_without_memory(void) {
    static const char rows[] = "-nn a/b\0o-o a\0o-- d\0-nn+e";
    uint32_t code = GABRO_NO_MEMORY;
    for (long count = 0; code != GABRO_DONE; count++) {
        char out[256];
        size_t written = 77;
        granted = count;
        is_refused = true;
        code = gabro_decide_rows(rows, sizeof rows, out, sizeof out, &written);
        is_refused = false;
        granted = 0;
        assert(code == GABRO_DONE || (code == GABRO_NO_MEMORY && written == 77));
        assert(count < 1000 && (count > 0 || code == GABRO_NO_MEMORY));
    }
}
#else
static void decide_without_memory(void) {}
#endif

static void tell_path_faults(void) {
    static const struct {
        const char *path;
        uint32_t fault;
    } paths[] = {
        {"a/b", GABRO_PATH_FINE},       {"", GABRO_PATH_EMPTY},           {"/a", GABRO_PATH_EMPTY},       {"a//b", GABRO_PATH_EMPTY},
        {"a/./b", GABRO_PATH_DOT},      {"../a", GABRO_PATH_DOT_DOT},     {".git/a", GABRO_PATH_OF_GIT},  {"a/.GIT.", GABRO_PATH_OF_GIT},
        {"git~1", GABRO_PATH_OF_GIT},   {"a/.jj", GABRO_PATH_OF_JJ},      {".gitignore", GABRO_PATH_FINE}, {".g\xe2\x80\x8cit", GABRO_PATH_OF_GIT},
    };
    for (size_t i = 0; i < sizeof paths / sizeof *paths; i++) {
        assert(gabro_path_fault(paths[i].path, strlen(paths[i].path)) == paths[i].fault);
    }
    assert(gabro_path_fault("a\0b", 3) == GABRO_PATH_WITH_NUL && gabro_path_fault(NULL, 0) == GABRO_PATH_EMPTY);
}

enum { TEXT_MODE = 0100644, RUN_MODE = 0100755, OF_LINK = 0120000, NO_KIND = 0644, BARE = 0755 };

/* What a tree has of a changed file by a side: the side's mode, but that lines stay on the unselected side, that a link is there where no file
 * is, and that a renamed file is at one of its paths. Contents that are items are those of a version. */
static void tell_sides(void) {
    static const struct {
        gabro_changed changed;
        bool is_selected;
        gabro_side_info side;
        gabro_in_tree found;
    } sides[] = {
        {{TEXT_MODE, RUN_MODE, GABRO_BY_LINES, false}, true, {GABRO_SIDE_TEXT, RUN_MODE, 1}, {RUN_MODE, GABRO_ABSENT, GABRO_OF_SIDE}},
        {{TEXT_MODE, GABRO_ABSENT, GABRO_BY_LINES, false}, true, {GABRO_SIDE_TEXT, GABRO_ABSENT, 1}, {GABRO_ABSENT, GABRO_ABSENT, GABRO_OF_SIDE}},
        {{TEXT_MODE, GABRO_ABSENT, GABRO_BY_LINES, false}, false, {GABRO_SIDE_TEXT, GABRO_ABSENT, 1}, {TEXT_MODE, GABRO_ABSENT, GABRO_OF_SIDE}},
        {{GABRO_ABSENT, RUN_MODE, GABRO_BY_LINES, false}, false, {GABRO_SIDE_TEXT, GABRO_ABSENT, 1}, {RUN_MODE, GABRO_ABSENT, GABRO_OF_SIDE}},
        {{TEXT_MODE, GABRO_ABSENT, GABRO_BY_LINES, false}, false, {GABRO_SIDE_UNCHANGED, GABRO_ABSENT, 0}, {GABRO_ABSENT, GABRO_ABSENT, GABRO_OF_SIDE}},
        /* a link beside lines */
        {{OF_LINK, TEXT_MODE, GABRO_BY_LINES, false}, true, {GABRO_SIDE_UNCHANGED, GABRO_ABSENT, 0}, {OF_LINK, GABRO_ABSENT, GABRO_OF_OLD}},
        {{OF_LINK, TEXT_MODE, GABRO_BY_LINES, false}, true, {GABRO_SIDE_TEXT, TEXT_MODE, 0}, {TEXT_MODE, GABRO_ABSENT, GABRO_OF_SIDE}},
        {{RUN_MODE, OF_LINK, GABRO_BY_LINES, false}, false, {GABRO_SIDE_UNCHANGED, GABRO_ABSENT, 0}, {OF_LINK, GABRO_ABSENT, GABRO_OF_NEW}},
        {{RUN_MODE, OF_LINK, GABRO_BY_LINES, false}, false, {GABRO_SIDE_TEXT, GABRO_ABSENT, 1}, {RUN_MODE, GABRO_ABSENT, GABRO_OF_SIDE}},
        {{OF_LINK, OF_LINK, GABRO_BY_LINES, false}, true, {GABRO_SIDE_TEXT, OF_LINK, 1}, {OF_LINK, GABRO_ABSENT, GABRO_OF_SIDE}},
        /* items: the contents apart from the mode, or along with it */
        {{TEXT_MODE, RUN_MODE, GABRO_BY_ITEMS, false}, true, {GABRO_SIDE_UNCHANGED, RUN_MODE, 0}, {RUN_MODE, GABRO_ABSENT, GABRO_OF_OLD}},
        {{TEXT_MODE, RUN_MODE, GABRO_BY_ITEMS, false}, true, {GABRO_SIDE_BINARY, TEXT_MODE, 0}, {TEXT_MODE, GABRO_ABSENT, GABRO_OF_NEW}},
        {{OF_LINK, RUN_MODE, GABRO_BY_ITEMS, false}, true, {GABRO_SIDE_UNCHANGED, RUN_MODE, 0}, {RUN_MODE, GABRO_ABSENT, GABRO_OF_NEW}},
        {{OF_LINK, RUN_MODE, GABRO_BY_ITEMS, false}, false, {GABRO_SIDE_UNCHANGED, OF_LINK, 0}, {OF_LINK, GABRO_ABSENT, GABRO_OF_OLD}},
        {{TEXT_MODE, GABRO_ABSENT, GABRO_BY_ITEMS, false}, true, {GABRO_SIDE_UNCHANGED, GABRO_ABSENT, 0}, {GABRO_ABSENT, GABRO_ABSENT, GABRO_OF_NEW}},
        /* one item for all of the file */
        {{GABRO_ABSENT, RUN_MODE, GABRO_BY_ONE_ITEM, false}, true, {GABRO_SIDE_UNCHANGED, RUN_MODE, 0}, {GABRO_ABSENT, GABRO_ABSENT, GABRO_OF_OLD}},
        {{GABRO_ABSENT, RUN_MODE, GABRO_BY_ONE_ITEM, false}, true, {GABRO_SIDE_BINARY, RUN_MODE, 0}, {RUN_MODE, GABRO_ABSENT, GABRO_OF_NEW}},
        /* a renamed file */
        {{TEXT_MODE, RUN_MODE, GABRO_BY_LINES, true}, true, {GABRO_SIDE_TEXT, RUN_MODE, 1}, {RUN_MODE, GABRO_ABSENT, GABRO_OF_SIDE}},
        {{TEXT_MODE, RUN_MODE, GABRO_BY_LINES, true}, true, {GABRO_SIDE_TEXT, NO_KIND, 1}, {GABRO_ABSENT, TEXT_MODE, GABRO_OF_SIDE}},
        {{TEXT_MODE, RUN_MODE, GABRO_BY_ITEMS, true}, false, {GABRO_SIDE_BINARY, GABRO_ABSENT, 0}, {GABRO_ABSENT, TEXT_MODE, GABRO_OF_NEW}},
    };
    for (size_t i = 0; i < sizeof sides / sizeof *sides; i++) {
        gabro_in_tree found = {0}, wanted = sides[i].found;
        gabro_tree_side(&sides[i].changed, sides[i].is_selected, &sides[i].side, &found);
        assert(found.mode == wanted.mode && found.old_path_mode == wanted.old_path_mode && found.contents == wanted.contents);
    }
}

/* What a state is given of a changed file. */
static void tell_shown(void) {
    static const struct {
        gabro_changed changed;
        bool is_other;
        gabro_shown shown;
    } files[] = {
        {{TEXT_MODE, RUN_MODE, GABRO_BY_LINES, false}, true, {TEXT_MODE, RUN_MODE, true, false}},
        {{OF_LINK, TEXT_MODE, GABRO_BY_LINES, false}, true, {GABRO_ABSENT, TEXT_MODE, true, false}},
        {{TEXT_MODE, OF_LINK, GABRO_BY_LINES, false}, true, {TEXT_MODE, GABRO_ABSENT, true, false}},
        {{TEXT_MODE, TEXT_MODE, GABRO_BY_ITEMS, false}, true, {TEXT_MODE, TEXT_MODE, false, true}},
        {{TEXT_MODE, RUN_MODE, GABRO_BY_ITEMS, false}, false, {TEXT_MODE, RUN_MODE, true, false}},
        {{OF_LINK, TEXT_MODE, GABRO_BY_ITEMS, false}, true, {OF_LINK, TEXT_MODE, true, false}},
        {{OF_LINK, TEXT_MODE, GABRO_BY_ONE_ITEM, false}, true, {TEXT_MODE, TEXT_MODE, false, true}},
        {{GABRO_ABSENT, TEXT_MODE, GABRO_BY_ONE_ITEM, false}, false, {TEXT_MODE, TEXT_MODE, false, true}},
        {{TEXT_MODE, GABRO_ABSENT, GABRO_BY_ONE_ITEM, false}, true, {TEXT_MODE, GABRO_ABSENT, true, false}},
        {{TEXT_MODE, RUN_MODE, GABRO_BY_ONE_ITEM, false}, true, {TEXT_MODE, RUN_MODE, true, true}},
        {{RUN_MODE, TEXT_MODE, GABRO_BY_ONE_ITEM, true}, true, {BARE, TEXT_MODE, true, true}},
    };
    for (size_t i = 0; i < sizeof files / sizeof *files; i++) {
        gabro_shown shown = {0}, wanted = files[i].shown;
        gabro_tree_shown(&files[i].changed, files[i].is_other, &shown);
        assert(shown.old_mode == wanted.old_mode && shown.new_mode == wanted.new_mode);
        assert(shown.has_mode == wanted.has_mode && shown.has_contents == wanted.has_contents);
    }
}

/* ---- The merge of two changed files ---- */

/* Three files whose merge has a conflict: ours deleted the line that theirs changed. */
#define MERGED "a\nb\n", 4, "a\n", 2, "a\nB\n", 4
/* Labels of the base, of ours and of theirs. The second one has a line end, so it is left out. */
#define LABELS "old", 3, "x\ny", 3, "topic", 5
#define NO_LABELS NULL, 0, NULL, 0, NULL, 0

/* Looks that the merge by marks is `wanted`, also in a buffer that is too short, and how many conflicts are open. */
static void merges_to(const char *marks, const char *wanted, size_t open) {
    char out[64];
    size_t written = 77, length = strlen(wanted), found = 77;
    memset(out, 'z', sizeof out);
    assert(gabro_merged_bytes(MERGED, marks, 3, out, sizeof out, &written) == GABRO_DONE);
    assert(written == length && memcmp(out, wanted, length) == 0 && out[length] == 'z');
    memset(out, 'z', sizeof out);
    assert(gabro_merged_bytes(MERGED, marks, 3, out, 1, &written) == GABRO_DONE && written == length && out[1] == 'z');
    assert(gabro_open_conflicts(MERGED, marks, 3, &found) == GABRO_DONE && found == open);
}

/* Looks that the merge by marks with conflict markers is `wanted`, also in a buffer that is too short. */
static void has_markers(const char *marks, const char *wanted) {
    char out[64];
    size_t written = 77, length = strlen(wanted);
    memset(out, 'z', sizeof out);
    assert(gabro_marked_bytes(MERGED, marks, 3, LABELS, 7, out, sizeof out, &written) == GABRO_DONE);
    assert(written == length && memcmp(out, wanted, length) == 0 && out[length] == 'z');
    memset(out, 'z', sizeof out);
    assert(gabro_marked_bytes(MERGED, marks, 3, LABELS, 7, out, 1, &written) == GABRO_DONE && written == length && out[1] == 'z');
}

/* Looks that the merge with an open conflict is `wanted` where its markers are to have this length. */
static void has_markers_of(size_t marker_length, const char *wanted) {
    char out[64];
    size_t written = 77;
    assert(gabro_marked_bytes(MERGED, "\0\1\0", 3, NO_LABELS, marker_length, out, sizeof out, &written) == GABRO_DONE);
    assert(written == strlen(wanted) && memcmp(out, wanted, written) == 0);
}

/* The lines of a merge as records, and what marks make of it. */
static void merge_files(void) {
    static const char records[] = " \2\0\0\0\0\0\0\0a\n"
                                  "o\0\0\0\0\0\0\0\0"
                                  "b\2\0\0\0\0\0\0\0b\n"
                                  "t\2\0\0\0\0\0\0\0B\n";
    char out[64];
    size_t written = 77, open = 77;
    memset(out, 'z', sizeof out);
    assert(gabro_merge_texts(MERGED, out, sizeof out, &written) == GABRO_DONE && written == sizeof records - 1);
    assert(memcmp(out, records, written) == 0 && out[written] == 'z');
    memset(out, 'z', sizeof out);
    assert(gabro_merge_texts(MERGED, out, 1, &written) == GABRO_DONE && written == sizeof records - 1 && out[0] == ' ' && out[1] == 'z');
    merges_to("\0\1\0", "a\n", 1);
    merges_to("\1\1\0", "a\n", 0);
    merges_to("\0\0\0", "a\nb\n", 0);
    merges_to("\0\1\1", "a\nB\n", 0);
    merges_to("\0\0\1", "a\nb\nB\n", 0);
    has_markers("\0\1\0", "a\n<<<<<<<\n||||||| old\nb\n=======\nB\n>>>>>>> topic\n");
    has_markers("\0\1\1", "a\nB\n");
    has_markers_of(9, "a\n<<<<<<<<<\n|||||||||\nb\n=========\nB\n>>>>>>>>>\n");
    has_markers_of(1, "a\n<\n|\nb\n=\nB\n>\n");
    assert(gabro_marked_bytes(MERGED, "\0\1\0", 3, NO_LABELS, SIZE_MAX, out, sizeof out, &written) == GABRO_NO_MEMORY);
    for (size_t count = 0; count < 5; count += count == 2 ? 2 : 1) {
        written = open = 77;
        assert(gabro_merged_bytes(MERGED, "\0\0\0\0", count, out, sizeof out, &written) == GABRO_NO_ITEM && written == 77);
        assert(gabro_marked_bytes(MERGED, "\0\0\0\0", count, LABELS, 7, out, sizeof out, &written) == GABRO_NO_ITEM && written == 77);
        assert(gabro_open_conflicts(MERGED, "\0\0\0\0", count, &open) == GABRO_NO_ITEM && open == 77);
    }
    assert(gabro_merge_texts(NULL, 0, NULL, 0, NULL, 0, NULL, 0, &written) == GABRO_DONE && written == 0);
    assert(gabro_merged_bytes(NULL, 0, NULL, 0, NULL, 0, NULL, 0, NULL, 0, &written) == GABRO_DONE && written == 0);
    assert(gabro_marked_bytes(NULL, 0, NULL, 0, NULL, 0, NULL, 0, NULL, 0, NULL, 0, NULL, 0, 0, NULL, 0, &written) == GABRO_DONE && written == 0);
    assert(gabro_open_conflicts(NULL, 0, NULL, 0, NULL, 0, NULL, 0, &open) == GABRO_DONE && open == 0);
}

/* Looks that the version `new` without its changes of blanks is `wanted`, also in a buffer that is too short, and how many lines are left out. */
static void without_blanks(const char *old, const char *new, const char *wanted, size_t count) {
    char out[64];
    size_t written = 77, left_out = 77, length = strlen(wanted);
    memset(out, 'z', sizeof out);
    assert(gabro_without_blank_changes(old, strlen(old), new, strlen(new), out, sizeof out, &written, &left_out) == GABRO_DONE);
    assert(written == length && memcmp(out, wanted, length) == 0 && out[length] == 'z' && left_out == count);
    memset(out, 'z', sizeof out);
    assert(gabro_without_blank_changes(old, strlen(old), new, strlen(new), out, 1, &written, &left_out) == GABRO_DONE);
    assert(written == length && left_out == count && out[1] == 'z');
}

/* A version without changes of blanks: each blank, what is none, and nothing. */
static void leave_out_blanks(void) {
    size_t written = 77, left_out = 77;
    without_blanks("a\nb\n", " a\t\nb\v\f\r\n", "a\nb\n", 2);
    without_blanks("a\nb\n", "a\nB \nb\n", "a\nB \nb\n", 0);
    without_blanks("a", "a\n", "a\n", 0);
    without_blanks("x y\n\xff\n", "xy\n\xff \n", "x y\n\xff\n", 2);
    assert(gabro_without_blank_changes(NULL, 0, NULL, 0, NULL, 0, &written, &left_out) == GABRO_DONE && written == 0 && left_out == 0);
}

#ifdef __GLIBC__
/* Makes one of the five calls. Returns its code, and leaves `written` as it was unless it was done. */
static uint32_t merge_by(int which, size_t *written) {
    char out[64];
    size_t left_out = 77;
    return which == 0   ? gabro_merge_texts(MERGED, out, sizeof out, written)
           : which == 1 ? gabro_merged_bytes(MERGED, "\0\0\0", 3, out, sizeof out, written)
           : which == 2 ? gabro_marked_bytes(MERGED, "\0\1\0", 3, LABELS, 7, out, sizeof out, written)
           : which == 3 ? gabro_open_conflicts(MERGED, "\0\0\0", 3, written)
                        : gabro_without_blank_changes("a\n", 2, " a\nb\n", 5, out, sizeof out, written, &left_out);
}

/* Refuses one allocation after another of each call: it says so, or all is done. */
static void merge_without_memory(void) {
    for (int which = 0; which < 5; which++) {
        uint32_t code = GABRO_NO_MEMORY;
        for (long count = 0; code != GABRO_DONE; count++) {
            size_t written = 77;
            granted = count;
            is_refused = true;
            code = merge_by(which, &written);
            is_refused = false;
            granted = 0;
            assert(code == GABRO_DONE || (code == GABRO_NO_MEMORY && written == 77));
            assert(count < 1000 && (count > 5 || code == GABRO_NO_MEMORY));
        }
    }
}
#else
static void merge_without_memory(void) {}
#endif

/* ---- A second run ---- */

/* A run on a terminal of its own, by another thread. */
typedef struct run {
    gabro_session session;
    int user, terminal; /* the ends of the pseudo terminal */
    int end, error;
} run;

static void *run_session(void *given) {
    run *run = given;
    run->end = gabro_run(&run->session, run->terminal, NULL);
    run->error = errno;
    return NULL;
}

/* Opens a session on a pseudo terminal. */
static run open_run(void) {
    run run = {.user = posix_openpt(O_RDWR | O_NOCTTY)};
    assert(run.user >= 0 && grantpt(run.user) == 0 && unlockpt(run.user) == 0);
    run.terminal = open(ptsname(run.user), O_RDWR | O_NOCTTY);
    assert(run.terminal >= 0 && gabro_new(&run.session, STATE, strlen(STATE), WIDTH, HEIGHT) == GABRO_DONE);
    return run;
}

static void close_run(run *run) {
    gabro_free(&run->session);
    close(run->terminal);
    close(run->user);
}

/* Reads what is shown until a frame has ended. */
static void read_frame(int user) {
    static char shown[1 << 16];
    size_t length = 0;
    while (!memmem(shown, length, "\x1b[?2026l", 8)) {
        ssize_t count = read(user, shown + length, sizeof shown - length);
        assert(count > 0);
        length += (size_t)count;
    }
}

/* Begins a run on a thread of its own, and waits until it has drawn. */
static pthread_t begin_run(run *run) {
    pthread_t thread;
    assert(pthread_create(&thread, NULL, run_session, run) == 0);
    read_frame(run->user);
    return thread;
}

/* Has the user of a run accept, and waits for its end. */
static void accept_run(run *run, pthread_t thread) {
    assert(write(run->user, "c", 1) == 1 && pthread_join(thread, NULL) == 0);
    assert(run->end == 0 && gabro_stage(&run->session) == GABRO_ACCEPTED);
}

/* Looks that a run was refused since another one goes on, and changed nothing. */
static void is_busy(run *run) {
    assert(run->end == -1 && run->error == EBUSY && gabro_stage(&run->session) == GABRO_WAITING);
    run->end = run->error = 0;
}

/* While a run goes on, another one is refused, on this thread and on a third one. Then it is not refused. */
static void refuse_runs(void) {
    run first = open_run(), second = open_run();
    pthread_t begun = begin_run(&first), other;
    run_session(&second);
    is_busy(&second);
    assert(pthread_create(&other, NULL, run_session, &second) == 0 && pthread_join(other, NULL) == 0);
    is_busy(&second);
    accept_run(&first, begun);
    accept_run(&second, begin_run(&second));
    close_run(&first);
    close_run(&second);
}

/* Where the items of the second file of a state are in its old and its new version: each of them selected, and the state as it begins. */
static void tell_places(void) {
    static const char old[] = "a\nb\nc\n", new[] = "a\nx\ny\nc\nd\n";
    static const struct {
        size_t section, line, old_line, new_line;
    } rows[] = {
        {GABRO_NO_INDEX, GABRO_NO_INDEX, 1, 1}, {1, GABRO_NO_INDEX, 2, 2}, {1, 0, 2, 2}, {1, 1, 3, 2}, {1, 2, 3, 3}, {3, GABRO_NO_INDEX, 4, 5}, {3, 0, 4, 5},
    };
    size_t file, old_line, new_line;
    done(gabro_state_new(&session, false), GABRO_BUILDING);
    refused(ask_line(&file, &old_line, &new_line), GABRO_NOT_NOW);
    done(gabro_begin(&session, WIDTH, HEIGHT), GABRO_WAITING);
    refused(ask_line(&file, &old_line, &new_line), GABRO_NOT_NOW); /* nothing can be selected */
    gabro_free(&session);
    done(gabro_state_new(&session, false), GABRO_BUILDING);
    done(gabro_state_texts(&session, "f", 1, "", 0, "a", 1, 0100644, "b", 1, 0100644), GABRO_BUILDING);
    done(gabro_state_texts(&session, "g", 1, "", 0, old, sizeof old - 1, 0100644, new, sizeof new - 1, 0100644), GABRO_BUILDING);
    done(gabro_begin(&session, WIDTH, HEIGHT), GABRO_WAITING);
    for (size_t i = 0; i < sizeof rows / sizeof *rows; i++) {
        gabro_key key = {0, 1, rows[i].section, rows[i].line};
        done(gabro_select(&session, &key), GABRO_WAITING);
        refused(ask_line(&file, &old_line, &new_line), GABRO_DONE);
        assert(file == 1 && old_line == rows[i].old_line && new_line == rows[i].new_line);
    }
    gabro_free(&session);
    before = look();
}

int main(void) {
    refuse_where_closed();
    refuse_states();
    refuse_additions();
    count_events();
    refuse_words();
    take_any_size();
    cut_text();
    tell_owners();
    take_bytes();
    take_layer();
    name_sections();
    tell_lines();
    tell_places();
    show_pages();
    take_texts();
    cut_window();
    done(begin(STATE), GABRO_WAITING);
    paint_rows();
    refuse_messages();
    refuse_after_the_end();
    end_by_memory();
    tell_structure();
    refuse_terminals();
    take_null();
    decide_paths();
    decide_without_memory();
    merge_files();
    leave_out_blanks();
    merge_without_memory();
    tell_path_faults();
    tell_sides();
    tell_shown();
    refuse_runs();
    return 0;
}
