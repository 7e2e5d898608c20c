/* random_calls COUNT SEED: makes COUNT random calls of the library for C, and holds each answer to what gabrosty.h says of it.
 *
 * The calls are of every kind, at every stage: half-made states, words and bytes of terminals, clicks, sizes from 0 on, answers, layers,
 * buffers that are too short, and some are made while memory is refused. A call that is refused must leave the state as it was:
 * the answers about it are compared. Each other call is made of a twin, too, which has all its memory: then both have the same answers.
 * First each request for memory of one call of `gabro_state_texts` is refused in turn. It prints how many calls had each code, and stops at
 * the first answer that is otherwise. */
#undef NDEBUG
#define _POSIX_C_SOURCE 200809L
#include "gabrosty.h"

#include <assert.h>
#include <errno.h>
#include <fcntl.h>
#include <inttypes.h>
#include <stdio.h>
#include <stdlib.h>
#include <string.h>

enum { CODES = 12, ROOM = 4096, CELLS = 3000, LONGEST = 1000000, GUARD = 0x5a };

static volatile uint32_t refused_after; /* 0: no request for memory is refused, 1: the next one, and so on */

/* Memory is refused if this is linked with -Wl,--wrap=malloc,--wrap=realloc. */
#ifdef WRAPPED
enum { CAN_REFUSE = true };
extern void *__real_malloc(size_t size);
extern void *__real_realloc(void *block, size_t size);
static bool is_refused(void) { return refused_after > 0 && --refused_after == 0; }
void *__wrap_malloc(size_t size) { return is_refused() ? NULL : __real_malloc(size); }
void *__wrap_realloc(void *block, size_t size) { return is_refused() ? NULL : __real_realloc(block, size); }
#else
enum { CAN_REFUSE = false };
#endif

static gabro_session session, twin;
static uint64_t seed;
static unsigned long counts[CODES];
static bool may_lack_memory;
static bool has_labels; /* headers may show labels, which `gabro_symbol` and `gabro_text` do not tell */
static char long_text[LONGEST + 2];
static int nowhere; /* an open file that is no terminal */

static uint32_t random_below(uint32_t limit) {
    seed = seed * 6364136223846793005u + 1442695040888963407u;
    return (uint32_t)(seed >> 33) % limit;
}

/* What the state's answers are, as one number. */
static uint64_t mixed(uint64_t sum, const void *data, size_t length) {
    const unsigned char *bytes = data;
    for (size_t i = 0; i < length; i++) {
        sum = (sum ^ bytes[i]) * 1099511628211u;
    }
    return sum;
}

/* Looks that a buffer is written up to `length` or its end, and not behind that. */
static void check_buffer(const char *out, size_t room, size_t length, bool is_written) {
    size_t end = is_written ? (length < room ? length : room) : 0;
    for (size_t i = end; i < ROOM; i++) {
        assert(out[i] == GUARD);
    }
}

static uint64_t side_sum(uint64_t sum, size_t file, bool selected) {
    static char out[ROOM];
    gabro_side_info side = {77, 77, 77};
    memset(out, GUARD, sizeof out);
    uint32_t code = gabro_side(&session, file, selected, out, ROOM, &side);
    assert(code == GABRO_DONE);
    assert(side.contents <= GABRO_SIDE_BINARY && (side.length == 0 || side.contents == GABRO_SIDE_TEXT));
    check_buffer(out, ROOM, side.length, true);
    sum = mixed(sum, &side.contents, sizeof side.contents);
    sum = mixed(mixed(sum, &side.mode, sizeof side.mode), &side.length, sizeof side.length);
    return mixed(sum, out, side.length < ROOM ? side.length : ROOM);
}

/* All marks of a file at once make the mark of the file. */
static uint64_t all_marks_sum(uint64_t sum, size_t file, uint32_t mark) {
    char marks[ROOM];
    size_t count = 77, checked = 0;
    memset(marks, GUARD, sizeof marks);
    uint32_t code = gabro_marks(&session, file, marks, sizeof marks, &count);
    assert(code == GABRO_DONE);
    check_buffer(marks, ROOM, count, true);
    for (size_t i = 0; i < count && i < sizeof marks; i++) {
        assert(marks[i] == 0 || marks[i] == 1);
        checked += marks[i] == 1;
    }
    assert(count > sizeof marks || mark == (checked == 0 ? GABRO_UNCHECKED : checked == count ? GABRO_CHECKED : GABRO_PARTLY));
    return mixed(sum, marks, count < sizeof marks ? count : sizeof marks);
}

/* A pager on a side of a file is the same one after keys that do nothing, and its page begins an update. */
static uint64_t page_sum(uint64_t sum, size_t file, bool is_selected) {
    char out[ROOM];
    size_t length = 77;
    gabro_pager pager = {77, 77, 77, false, false};
    memset(out, GUARD, sizeof out);
    uint32_t code = gabro_pager_open(&session, file, is_selected, &pager);
    assert(code == GABRO_DONE && pager.is_open && pager.selected == is_selected && pager.file == file && pager.top == 0 && pager.left == 0);
    code = gabro_pager_show(&session, &pager, 0, 0, 4);
    assert(code == GABRO_DONE && pager.is_open && pager.selected == is_selected && pager.file == file && pager.top == 0 && pager.left == 0);
    code = gabro_pager_type(&session, &pager, "xyz", 3, 30, 4);
    assert(code == GABRO_DONE && pager.is_open && pager.selected == is_selected && pager.file == file && pager.top == 0 && pager.left == 0);
    code = gabro_pager_paint(&session, &pager, 30, 4, out, sizeof out, &length);
    assert(code == GABRO_DONE && length > 8 && memcmp(out, "\x1b[?2026h", 8) == 0);
    check_buffer(out, ROOM, length, true);
    return mixed(sum, out, length < sizeof out ? length : sizeof out);
}

static uint64_t marks_sum(uint64_t sum, size_t file) {
    uint32_t mark = 77;
    gabro_key key = {0, file, GABRO_NO_INDEX, GABRO_NO_INDEX};
    assert(gabro_mark(&session, &key, &mark) == GABRO_DONE && mark <= GABRO_CHECKED);
    sum = all_marks_sum(mixed(sum, &mark, sizeof mark), file, mark);
    sum = page_sum(page_sum(sum, file, true), file, false);
    for (key.section = 0; key.section < 4; key.section++) {
        for (key.line = 0; key.line < 4; key.line++) {
            uint32_t code = gabro_mark(&session, &key, &mark);
            assert(code == GABRO_DONE || code == GABRO_NO_ITEM);
            sum = mixed(mixed(sum, &code, sizeof code), &mark, sizeof mark);
            size_t length = 77;
            char text[ROOM];
            uint32_t code_of_line = gabro_line(&session, &key, text, sizeof text, &length);
            assert(code_of_line == GABRO_DONE || (code_of_line == GABRO_NO_ITEM && length == 77 && code == GABRO_NO_ITEM));
            sum = code_of_line == GABRO_DONE ? mixed(sum, text, length < sizeof text ? length : sizeof text) : sum;
        }
    }
    return sum;
}

/* Asks what an item is. It is there if `is_there`, and else nothing is written. Returns its number of parts. */
static size_t parts_of(uint64_t *sum, const gabro_key *key, bool is_there) {
    uint32_t kind = 77;
    size_t parts = 0;
    uint32_t code = gabro_item(&session, key, &kind, &parts);
    assert(code == (is_there ? GABRO_DONE : GABRO_NO_ITEM) && (is_there ? kind >= GABRO_FILE && kind <= GABRO_BINARY : kind == 77 && parts == 0));
    *sum = mixed(mixed(*sum, &kind, sizeof kind), &parts, sizeof parts);
    return parts;
}

/* The paths of a file, and its items: as many as it says. */
static uint64_t structure_sum(uint64_t sum, size_t file) {
    char path[ROOM];
    size_t length = 77;
    for (int is_old = 0; is_old < 2; is_old++) {
        uint32_t code = gabro_path(&session, file, is_old, path, sizeof path, &length);
        assert(code == GABRO_DONE || (is_old && code == GABRO_NO_ITEM));
        sum = code == GABRO_DONE ? mixed(sum, path, length < sizeof path ? length : sizeof path) : sum;
    }
    gabro_key key = {0, file, GABRO_NO_INDEX, GABRO_NO_INDEX};
    size_t sections = parts_of(&sum, &key, true);
    for (key.section = 0; key.section < 4; key.section++) {
        key.line = GABRO_NO_INDEX;
        size_t lines = parts_of(&sum, &key, key.section < sections);
        for (key.line = 0; key.line < 4; key.line++) {
            size_t none = parts_of(&sum, &key, key.line < lines);
            assert(none == 0);
        }
    }
    return sum;
}

/* What can be asked of a session: its stage, and of its state the files, their items, sides, marks and messages. */
static uint64_t asked(void) {
    uint32_t stage = gabro_stage(&session), code;
    uint64_t sum = mixed(0, &stage, sizeof stage);
    uint32_t end = gabro_end(&session), dialog = gabro_dialog(&session);
    assert(dialog <= GABRO_HELP && (stage == GABRO_WAITING || dialog == GABRO_NO_DIALOG));
    sum = mixed(sum, &dialog, sizeof dialog);
    assert(end <= GABRO_END_NO_MEMORY && (end == GABRO_END_ACCEPTED) == (stage == GABRO_ACCEPTED));
    assert((end >= GABRO_END_CANCELLED) == (stage == GABRO_ENDED));
    gabro_key selected;
    code = gabro_selected(&session, &selected);
    assert(code == (stage == GABRO_WAITING ? GABRO_DONE : stage == GABRO_NONE ? GABRO_CLOSED : GABRO_NOT_NOW));
    size_t count = 77, length;
    char out[ROOM];
    code = gabro_files(&session, &count);
    bool has_state = stage == GABRO_BUILDING || stage == GABRO_WAITING || stage == GABRO_ACCEPTED;
    assert(code == (has_state ? GABRO_DONE : stage == GABRO_NONE ? GABRO_CLOSED : GABRO_NOT_NOW) && (has_state || count == 77));
    for (size_t file = 0; has_state && file < count && file < 3; file++) {
        sum = structure_sum(marks_sum(side_sum(side_sum(sum, file, true), file, false), file), file);
    }
    for (size_t commit = 0; has_state && commit < 3; commit++) {
        code = gabro_message(&session, commit, out, sizeof out, &length);
        assert(code == GABRO_DONE || code == GABRO_NO_ITEM);
        sum = code == GABRO_DONE ? mixed(sum, out, length < sizeof out ? length : sizeof out) : mixed(sum, &code, sizeof code);
    }
    return mixed(sum, &count, sizeof count);
}

/* Counts a code, which has to be one of these, or GABRO_NO_MEMORY while memory may be refused. */
static uint32_t one_of(uint32_t code, uint32_t a, uint32_t b, uint32_t c) {
    assert(code == a || code == b || code == c || (may_lack_memory && code == GABRO_NO_MEMORY));
    counts[code]++;
    return code;
}

/* A text of up to eight pieces, some of which are no UTF-8. */
static size_t random_text(char *text) {
    static const char *const pieces[] = {"a", "line\n", "\n", "wide \xe6\x97\xa5\n", "\xff", "\t", "e\xcc\x81", "\x1b[31m", "x y z\n", "+", "\xf0\x9f\x98\x80\n", "\xf3\xa0\x83\xbf"};
    size_t length = 0;
    for (uint32_t i = random_below(8); i > 0; i--) {
        const char *piece = pieces[random_below(sizeof pieces / sizeof *pieces)];
        memcpy(text + length, piece, strlen(piece));
        length += strlen(piece);
    }
    return length;
}

static bool is_utf8(const char *text, size_t length) { return memchr(text, 0xff, length) == NULL; }

/* The code of an addition with these texts, if memory is there: `is_long` is whether one is too long. */
static uint32_t addition_code(bool is_text, bool needs_file, bool is_long) {
    uint32_t stage = gabro_stage(&session);
    size_t count = 0;
    if (!is_text) {
        return GABRO_NOT_TEXT;
    }
    if (stage != GABRO_BUILDING) {
        return stage == GABRO_NONE ? GABRO_CLOSED : GABRO_NOT_NOW;
    }
    assert(gabro_files(&session, &count) == GABRO_DONE);
    return needs_file && count == 0 ? GABRO_NO_ITEM : is_long ? GABRO_TOO_LONG : GABRO_DONE;
}

static uint32_t add_lines(void) {
    char text[ROOM];
    size_t length = random_text(text);
    const char *given = text;
    bool is_long = random_below(200) == 0;
    if (is_long) {
        given = long_text, length = LONGEST + 1;
    }
    uint32_t wanted = addition_code(is_utf8(given, length), true, is_long);
    uint32_t kind = random_below(3);
    uint32_t code = kind == 0 ? gabro_state_context(&session, given, length)
        : kind == 1 ? gabro_state_line(&session, random_below(2), random_below(2), random_below(2), given, length)
                    : gabro_state_changes(&session, random_below(2), random_below(2), given, length);
    return one_of(code, wanted, wanted, wanted);
}

/* Looks that a side of the last file has these bytes. */
static void check_bytes(bool selected, const char *bytes, size_t length) {
    static char out[ROOM];
    size_t count = 0, written = 77;
    assert(gabro_files(&session, &count) == GABRO_DONE && count > 0);
    memset(out, GUARD, sizeof out);
    assert(gabro_side_bytes(&session, count - 1, selected, out, ROOM, &written) == GABRO_DONE);
    assert(written == length && memcmp(out, bytes, length) == 0);
    check_buffer(out, ROOM, length, true);
}

/* Adds a file by its two versions. Its sides are their bytes. */
static uint32_t add_versions(const char *old, size_t old_size, const char *new_bytes, size_t new_size, size_t old_mode) {
    uint32_t wanted = addition_code(true, false, false);
    uint32_t code = gabro_state_texts(&session, "p", 1, "", 0, old, old_size, old_mode, new_bytes, new_size, 0100644);
    if (code == GABRO_DONE) {
        refused_after = 0;
        check_bytes(true, old, old_mode == GABRO_ABSENT ? 0 : old_size);
        check_bytes(false, new_bytes, new_size);
    }
    return one_of(code, wanted, wanted, wanted);
}

static uint32_t code_at(uint32_t stage) {
    uint32_t now = gabro_stage(&session);
    return now == stage ? GABRO_DONE : now == GABRO_NONE ? GABRO_CLOSED : GABRO_NOT_NOW;
}

/* Hands in marks of a file, sometimes too many or too few. Then the file has them. The call takes no memory. */
static uint32_t set_marks(void) {
    char marks[ROOM], found[ROOM];
    size_t file = random_below(3), items = 0, length = 77;
    uint32_t refused = refused_after, wanted = code_at(GABRO_BUILDING);
    refused_after = 0;
    bool is_file = gabro_marks(&session, file, marks, 0, &items) == GABRO_DONE;
    refused_after = refused;
    size_t count = random_below(4) && items < sizeof marks ? items : random_below(6);
    for (size_t i = 0; i < count; i++) {
        marks[i] = (char)random_below(3);
    }
    wanted = wanted == GABRO_DONE && (!is_file || count != items) ? GABRO_NO_ITEM : wanted;
    uint32_t code = gabro_state_marks(&session, file, marks, count);
    assert(code == wanted && refused_after == refused);
    refused_after = 0;
    if (code == GABRO_DONE) {
        assert(gabro_marks(&session, file, found, sizeof found, &length) == GABRO_DONE && length == count);
        for (size_t i = 0; i < count; i++) {
            assert(found[i] == (marks[i] == 1));
        }
    }
    counts[code]++;
    return code;
}

static uint32_t add_other(void) {
    char one[ROOM], two[ROOM];
    size_t first = random_text(one), second = random_text(two);
    bool both = is_utf8(one, first) && is_utf8(two, second);
    uint32_t wanted = addition_code(true, true, false);
    size_t mode = random_below(4) ? 0100644 + random_below(2) * 0111 : GABRO_ABSENT;
    switch (random_below(8)) {
    case 6: return set_marks();
    case 0: return one_of(gabro_state_section(&session, random_below(2)), wanted, wanted, wanted);
    case 1: return one_of(gabro_state_mode(&session, random_below(2), mode), wanted, wanted, wanted);
    case 2:
        wanted = addition_code(both, true, false);
        return one_of(gabro_state_binary(&session, random_below(2), one, first, two, second), wanted, wanted, wanted);
    case 3:
        wanted = addition_code(is_utf8(one, first), false, false);
        return one_of(gabro_state_message(&session, one, first), wanted, wanted == GABRO_DONE ? GABRO_NOT_ACCEPTED : wanted, wanted);
    case 4:
        wanted = addition_code(true, false, false);
        return one_of(gabro_state_commit(&session), wanted, wanted == GABRO_DONE ? GABRO_NOT_ACCEPTED : wanted, wanted);
    case 5: return add_versions(one, first, two, second, mode);
    default:
        wanted = addition_code(both, false, false);
        return one_of(gabro_state_file(&session, one, first, two, second, mode), wanted, wanted, wanted);
    }
}

static uint32_t begin(void) {
    uint32_t wanted = code_at(GABRO_BUILDING);
    uint16_t width = (uint16_t)random_below(90), height = (uint16_t)random_below(30);
    uint32_t code = random_below(2) ? gabro_begin(&session, width, height) : gabro_begin_layer(&session, width, height);
    return one_of(code, wanted, wanted, wanted);
}

/* Reads the log of a layer, which may not be there, into a buffer that may be too short. */
static uint32_t read_log(uint32_t wanted) {
    static char out[ROOM];
    size_t room = random_below(2) ? random_below(200) : ROOM, length = 77;
    memset(out, GUARD, sizeof out);
    uint32_t code = one_of(gabro_logged(&session, out, room, &length), wanted, GABRO_NOT_NOW, GABRO_NO_MEMORY);
    check_buffer(out, room, length, code == GABRO_DONE);
    assert(code == GABRO_DONE || length == 77);
    return code;
}

/* A call of a layer, also where there is none. */
static uint32_t layer(void) {
    static const char *const keys[] = {"x=undo", "ctrl-n=j x=space", "", "x", "v=range u=nothing >=search"};
    char text[ROOM];
    size_t length = random_text(text);
    uint32_t wanted = gabro_stage(&session) == GABRO_NONE ? GABRO_CLOSED : GABRO_DONE, which = random_below(5);
    gabro_key first = {0, random_below(3), random_below(4), random_below(4)};
    switch (random_below(8)) {
    case 0:
        wanted = which > GABRO_NO_COLOURS ? GABRO_NO_NUMBER : wanted;
        return one_of(gabro_theme(&session, which), wanted, wanted == GABRO_DONE ? GABRO_NOT_NOW : wanted, wanted);
    case 1:
        wanted = is_utf8(text, length) ? wanted : GABRO_NOT_TEXT;
        return one_of(gabro_accept_text(&session, text, length), wanted, wanted == GABRO_DONE ? GABRO_NOT_NOW : wanted, wanted);
    case 2:
        wanted = is_utf8(text, length) ? wanted : GABRO_NOT_TEXT;
        has_labels = true;
        return one_of(gabro_label(&session, random_below(3), random_below(4), text, length), wanted, wanted == GABRO_DONE ? GABRO_NOT_NOW : wanted, wanted);
    case 3:
        wanted = which > GABRO_OPEN_IF_IT_FITS ? GABRO_NO_NUMBER : wanted;
        return one_of(gabro_start(&session, which, &first), wanted, wanted == GABRO_DONE ? GABRO_NOT_NOW : wanted, wanted);
    case 4:
        wanted = which == 3 ? GABRO_NO_KEY : wanted;
        return one_of(gabro_keys(&session, keys[which], strlen(keys[which])), wanted, wanted == GABRO_DONE ? GABRO_NOT_NOW : wanted, wanted);
    case 5:
        has_labels = true;
        return one_of(gabro_name_sections(&session), wanted, wanted == GABRO_DONE ? GABRO_NOT_NOW : wanted, wanted);
    case 6: return one_of(gabro_log(&session), wanted, wanted == GABRO_DONE ? GABRO_NOT_NOW : wanted, wanted);
    default: return read_log(wanted);
    }
}

/* Presses `count` words as one batch, and counts the events that were handled: all, unless one of them ended the session or asked for a
 * message. A session with a layer refuses that. */
static uint32_t press_and_count(const char *text, size_t count, uint32_t wanted) {
    size_t handled = 77;
    uint32_t code = one_of(gabro_press_and_count(&session, text, strlen(text), &handled), wanted, wanted == GABRO_DONE ? GABRO_NOT_NOW : wanted, wanted);
    bool goes_on = gabro_stage(&session) == GABRO_WAITING;
    assert(code == GABRO_DONE ? handled <= count && (handled == count || !goes_on) : handled == 77);
    return code;
}

/* Presses up to three words as one batch. */
static uint32_t press_batch(const char *const *words, size_t count, uint32_t wanted) {
    char text[64] = "";
    bool is_known = true;
    uint32_t presses = random_below(4);
    for (uint32_t i = 0; i < presses; i++) {
        uint32_t which = random_below((uint32_t)count);
        is_known = is_known && which < count - 2;
        strcat(strcat(text, words[which]), random_below(2) ? " " : "   ");
    }
    wanted = is_known ? wanted : GABRO_NO_WORD;
    return random_below(2) ? press_and_count(text, presses, wanted) : one_of(gabro_press_all(&session, text, strlen(text)), wanted, wanted, wanted);
}

/* Decodes bytes, or a silence, into room that may be too short, and presses what they mean as one batch. */
static uint32_t decode(const char *bytes, size_t length, uint32_t wanted) {
    static char out[ROOM];
    size_t room = random_below(3) ? ROOM : random_below(20), written = 77;
    uint32_t code_if_open = gabro_stage(&session) == GABRO_NONE ? GABRO_CLOSED : GABRO_DONE;
    memset(out, GUARD, sizeof out);
    uint32_t code = random_below(4) ? gabro_decode(&session, bytes, length, out, room, &written)
                                    : gabro_decode_idle(&session, out, room, &written);
    one_of(code, code_if_open, code_if_open, code_if_open);
    check_buffer(out, room, written, code == GABRO_DONE && written <= room);
    assert(code == GABRO_DONE || written == 77);
    if (code != GABRO_DONE || written > room) {
        return code;
    }
    return one_of(gabro_press_all(&session, out, written), wanted, wanted, wanted);
}

/* Selects a random item. Then it is selected, unless the session ended since memory was refused. */
static uint32_t select_item(void) {
    gabro_key key = {random_below(8) == 0, random_below(3), GABRO_NO_INDEX, GABRO_NO_INDEX}, selected;
    if (random_below(4)) {
        key.section = random_below(4);
        key.line = random_below(3) ? random_below(4) : GABRO_NO_INDEX;
    }
    uint32_t wanted = code_at(GABRO_WAITING);
    uint32_t code = one_of(gabro_select(&session, &key), wanted, wanted == GABRO_DONE ? GABRO_NO_ITEM : wanted, wanted);
    if (code == GABRO_DONE && gabro_stage(&session) == GABRO_WAITING) {
        assert(gabro_selected(&session, &selected) == GABRO_DONE && memcmp(&key, &selected, sizeof key) == 0);
    }
    return code;
}

/* Types bytes up to a key that means nothing to a session. */
static uint32_t type_to_key(const char *bytes, size_t length, uint32_t wanted) {
    size_t taken = 77;
    uint32_t key = 77, code = one_of(gabro_type_to_key(&session, bytes, length, &taken, &key), wanted, wanted, wanted);
    assert(code == GABRO_DONE ? taken <= length && (key != 0 || taken == length || gabro_stage(&session) == GABRO_WAITING) : taken == 77 && key == 77);
    return code;
}

static uint32_t input(void) {
    static const char *const words[] = {"j", "k", "l", "h", "space", "enter", "a", "shift-A", "f", "shift-F", "e", "c", "q", "?", "esc",
                                        "none", "view", "ensure", "pagedown", "ctrl-d", "click:3:4", "click:0:2", "no word", "\xff"};
    char text[ROOM];
    size_t length = random_text(text);
    uint32_t wanted = code_at(GABRO_WAITING), which = random_below(sizeof words / sizeof *words);
    switch (random_below(10)) {
    case 9: return type_to_key(text, length, wanted);
    case 8: return select_item();
    case 4: return press_batch(words, sizeof words / sizeof *words, wanted);
    case 5: return decode(text, length, wanted);
    case 0: return one_of(gabro_type(&session, text, length), wanted, wanted, wanted);
    case 1: return one_of(gabro_idle(&session), wanted, wanted, wanted);
    case 2: return one_of(gabro_click(&session, (uint16_t)random_below(40), (uint16_t)random_below(100)), wanted, wanted, wanted);
    case 3: return one_of(gabro_resize(&session, (uint16_t)random_below(90), (uint16_t)random_below(30)), wanted, wanted, wanted);
    default:
        wanted = which >= sizeof words / sizeof *words - 2 ? GABRO_NO_WORD : wanted;
        return one_of(gabro_press(&session, words[which], strlen(words[which])), wanted, wanted, wanted);
    }
}

static uint32_t answer(void) {
    char text[ROOM];
    size_t length = random_text(text);
    bool is_long = random_below(50) == 0;
    uint32_t wanted = is_long ? GABRO_TOO_LONG : !is_utf8(text, length) ? GABRO_NOT_TEXT : code_at(GABRO_EDITING);
    if (random_below(2)) {
        return one_of(is_long ? gabro_answer(&session, long_text, LONGEST + 1) : gabro_answer(&session, text, length), wanted, wanted, wanted);
    }
    size_t handled = 77;
    uint32_t code = gabro_answer_and_count(&session, is_long ? long_text : text, is_long ? LONGEST + 1 : length, &handled);
    assert(code == GABRO_DONE ? handled < ROOM : handled == 77);
    return one_of(code, wanted, wanted == GABRO_DONE ? GABRO_NOT_NOW : wanted, wanted);
}

/* Looks that a cell has the symbol of its place, also on the status row. The last row has no label. */
static void check_cell(const gabro_cell *cell, const char *text, size_t place, const gabro_screen_info *info) {
    static char symbol[ROOM];
    size_t row = place / info->columns, column = place % info->columns;
    size_t length = gabro_symbol(&session, (uint16_t)row, (uint16_t)column, symbol, sizeof symbol);
    bool is_it = length == cell->length && memcmp(symbol, text + cell->start, length) == 0;
    assert(is_it || (has_labels && row + 1 < info->rows));
    assert(cell->foreground <= GABRO_WHITE && cell->background == GABRO_COLOUR_NONE && cell->flags < 16);
    assert(cell->length > 0 ? cell->columns > 0 && column + cell->columns <= info->columns : cell->columns == 0 && cell->flags == 0);
}

/* Looks that the text of the screen ends with the last row of its cells. */
static void check_last_row(const gabro_cell *cells, const char *text, const gabro_screen_info *info) {
    static char all[16 * ROOM], row[4 * ROOM];
    size_t length = 77, end = 0;
    assert(gabro_text(&session, all, sizeof all, &length) == GABRO_DONE && length <= sizeof all);
    for (size_t place = info->columns * (info->rows - 1); place < info->columns * info->rows; place++) {
        memcpy(row + end, text + cells[place].start, cells[place].length);
        end += cells[place].length;
    }
    assert(length >= end + 3 && all[length - end - 3] == '"' && memcmp(all + length - end - 2, row, end) == 0);
    assert(memcmp(all + length - 2, "\"\n", 2) == 0);
}

/* Reads the screen as cells, into buffers that may be too short. */
static uint32_t read_cells(void) {
    static gabro_cell cells[CELLS];
    static char text[4 * ROOM];
    size_t count = random_below(2) ? random_below(CELLS) : CELLS, room = random_below(2) ? random_below(200) : sizeof text;
    gabro_screen_info info = {77, 77, 77};
    memset(cells, GUARD, sizeof cells);
    memset(text, GUARD, sizeof text);
    uint32_t wanted = code_at(GABRO_WAITING), code = one_of(gabro_cells(&session, cells, count, text, room, &info), wanted, wanted, wanted);
    refused_after = 0;
    bool is_done = code == GABRO_DONE;
    assert(is_done || (info.columns == 77 && info.rows == 77 && info.length == 77));
    size_t places = is_done ? info.columns * info.rows : 0, length = is_done ? info.length : 0, begins = 0;
    for (size_t place = 0; place < CELLS; place++) {
        if (place >= places || place >= count) {
            assert(cells[place].start == SIZE_MAX / 255 * GUARD);
            continue;
        }
        assert(cells[place].start == begins);
        begins += cells[place].length;
        if (length <= room) {
            check_cell(&cells[place], text, place, &info);
        }
    }
    assert(places > count || begins == length);
    if (places > 0 && places <= count && length <= room) {
        check_last_row(cells, text, &info);
    }
    for (size_t i = length < room ? length : room; i < sizeof text; i++) {
        assert(text[i] == GUARD);
    }
    return code;
}

/* Has the session run on an open file that is no terminal, or on none: the call says so, at any stage, and the session is as it was. */
static uint32_t run_nowhere(void) {
    gabro_hooks hooks = {.context = NULL};
    refused_after = 0; /* what it asks takes memory */
    uint64_t before = asked();
    int terminal = random_below(2) ? -1 : nowhere, end = random_below(2) ? gabro_run(&session, terminal, NULL)
                                                                       : gabro_run_with(&session, terminal, "a title", random_below(2) ? &hooks : NULL);
    assert(end == -1 && errno == (terminal == -1 ? EBADF : ENOTTY) && asked() == before);
    counts[GABRO_DONE]++;
    return GABRO_DONE;
}

/* Asks for the sentences of codes, and for the version. */
static uint32_t read_words(void) {
    char out[ROOM];
    uint32_t code = random_below(CODES + 3);
    size_t room = random_below(2) ? random_below(20) : ROOM;
    memset(out, GUARD, sizeof out);
    size_t length = gabro_words(code, out, room);
    assert((length > 0) == (code < CODES) && gabro_version() == GABRO_VERSION);
    check_buffer(out, room, length, true);
    counts[GABRO_DONE]++;
    return GABRO_DONE;
}

/* Reads into a buffer that may be too short. */
static uint32_t read_out(void) {
    static char out[ROOM];
    size_t room = random_below(2) ? random_below(200) : ROOM, length = 77;
    uint32_t stage = gabro_stage(&session), wanted = stage == GABRO_NONE ? GABRO_CLOSED : GABRO_DONE;
    gabro_key key;
    memset(out, GUARD, sizeof out);
    uint32_t which = random_below(7), code;
    if (which >= 4) {
        return which == 4 ? read_cells() : which == 5 ? run_nowhere() : read_words();
    }
    if (which == 0) {
        code = one_of(gabro_text(&session, out, room, &length), wanted, wanted, wanted);
    } else if (which == 1) {
        wanted = code_at(GABRO_WAITING);
        code = one_of(gabro_paint(&session, out, room, &length), wanted, wanted, wanted);
        check_buffer(out, room, length, code == GABRO_DONE && length <= room);
    } else if (which == 2) {
        code = one_of(gabro_repaint(&session), wanted, wanted, wanted);
        return code;
    } else {
        uint32_t owner = gabro_owner(&session, (uint16_t)random_below(40), (uint16_t)random_below(100), &key);
        assert(owner <= GABRO_FILE_EDGE && (stage == GABRO_WAITING || owner == GABRO_NOBODY));
        length = gabro_symbol(&session, (uint16_t)random_below(40), (uint16_t)random_below(100), out, room);
        check_buffer(out, room, length, true);
        assert(stage == GABRO_WAITING || length == 0);
        counts[GABRO_DONE]++;
        return GABRO_DONE;
    }
    if (which == 0) {
        check_buffer(out, room, length, code == GABRO_DONE);
    }
    assert(code == GABRO_DONE || length == 77);
    return code;
}

/* Writes up to eight rows of paths at random, some of which are none. Returns their length. */
static size_t random_rows(char *rows) {
    static const char *const paths[] = {"a", "a/b", "a/b/c", "b", "a-", "B", ".git/x", "", "a\xff"};
    size_t length = 0;
    for (uint32_t i = random_below(9); i > 0; i--) {
        const char *path = paths[random_below(sizeof paths / sizeof *paths)];
        rows[length++] = "o-"[random_below(2)];
        rows[length++] = "n-"[random_below(2)];
        rows[length++] = "onc-=z"[random_below(random_below(8) == 0 ? 6 : 5)];
        rows[length++] = " +"[random_below(4) == 0];
        memcpy(rows + length, path, strlen(path) + 1);
        length += strlen(path) + 1;
    }
    return length - (length > 0 && random_below(20) == 0);
}

/* Looks that an answer is what gabrosty.h says: versions of paths, and then two records for each file that is left out, or one fault. */
static void check_decided(const char *answer, size_t length) {
    bool is_fault = length > 0 && strchr("#2!/+", answer[0]), is_refusal = false;
    for (size_t at = 0, count = 0; at < length; count++) {
        char letter = answer[at];
        size_t size = strnlen(answer + at, length - at);
        assert(size >= 2 && size < length - at && answer[at + 1] == ' ');
        assert(is_fault ? count == 0 : strchr(is_refusal ? "xy" : "onc-x", letter) != NULL);
        is_refusal = is_refusal || letter == 'x';
        at += size + 1;
    }
}

static size_t random_mode(void) {
    static const size_t modes[] = {0100644, 0100755, 0120000, 0644, 0, GABRO_ABSENT};
    return modes[random_below(sizeof modes / sizeof *modes)];
}

/* Whatever a side is, a tree has one of the modes that are given, and a renamed file is at one of its paths. If a state has no items of a file,
 * its versions do not differ. */
static void check_sides(void) {
    gabro_changed changed = {random_mode(), random_mode(), (uint32_t)random_below(4), random_below(2)};
    gabro_side_info side = {(uint32_t)random_below(3), random_mode(), random_below(2)};
    gabro_in_tree found;
    gabro_shown shown;
    gabro_tree_side(&changed, random_below(2), &side, &found);
    bool is_known = found.mode == changed.old_mode || found.mode == changed.new_mode || found.mode == side.mode;
    assert((is_known || found.mode == GABRO_ABSENT) && found.contents <= GABRO_OF_NEW);
    bool is_both = changed.is_renamed && changed.old_mode != GABRO_ABSENT && changed.new_mode != GABRO_ABSENT;
    assert(is_both ? (found.mode != GABRO_ABSENT) != (found.old_path_mode != GABRO_ABSENT) : found.old_path_mode == GABRO_ABSENT);
    gabro_tree_shown(&changed, true, &shown);
    assert(shown.has_mode == (shown.old_mode != shown.new_mode));
    assert(shown.has_mode || shown.has_contents || changed.shown == GABRO_BY_LINES || changed.shown > GABRO_BY_ONE_ITEM || is_both);
}

/* Decides what becomes of random rows, in a buffer that may be too short. */
static uint32_t decide(void) {
    static char rows[ROOM], out[ROOM];
    size_t count = random_rows(rows), room = random_below(4) ? ROOM : random_below(20), length = 77;
    memset(out, GUARD, sizeof out);
    uint32_t code = one_of(gabro_decide_rows(rows, count, out, room, &length), GABRO_DONE, GABRO_DONE, GABRO_DONE);
    check_buffer(out, room, length, code == GABRO_DONE);
    assert(code == GABRO_DONE || length == 77);
    if (code == GABRO_DONE && length <= room) {
        check_decided(out, length);
    }
    assert(gabro_path_fault(rows, count) <= GABRO_PATH_WITH_NUL);
    check_sides();
    return code;
}

/* Random lines of a file, at most 40 bytes. Returns how many bytes they have. */
static size_t random_file(char *bytes) {
    size_t length = 0;
    for (uint32_t i = random_below(13); i > 0; i--) {
        bytes[length++] = "abc\xff\0"[random_below(random_below(8) == 0 ? 5 : 3)];
        bytes[length++] = '\n';
    }
    return length - (length > 0 && random_below(4) == 0);
}

/* Looks that records have the letters that gabrosty.h says, in their order. Returns how many are of a conflict, and sets `conflicts`. */
static size_t check_merge(const char *records, size_t length, size_t *conflicts) {
    size_t items = 0;
    char last = ' ';
    *conflicts = 0;
    for (size_t at = 0; at < length; at += 9 + (unsigned char)records[at + 1]) {
        char letter = records[at];
        const char *next = letter == 'o' ? " o" : letter == 'b' ? "ob" : letter == 't' ? "bt" : " t";
        assert(length - at >= 9 && (unsigned char)records[at + 1] <= length - at - 9 && strchr(" obt", letter) && strchr(next, last));
        *conflicts += letter == 'o' && last != 'o';
        items += letter != ' ';
        last = letter;
    }
    assert(last == ' ' || last == 't');
    return items;
}

/* Merges random files by random marks, in buffers that may be too short. */
static uint32_t merge(void) {
    static char records[ROOM], out[ROOM];
    char files[3][40], marks[200];
    size_t sizes[3], count = random_below(20), room = random_below(4) ? ROOM : random_below(20), length = 77, conflicts = 0, open = 77;
    for (int i = 0; i < 3; i++) {
        sizes[i] = random_file(files[i]);
    }
    memset(records, GUARD, sizeof records);
    memset(out, GUARD, sizeof out);
    uint32_t code = one_of(gabro_merge_texts(files[0], sizes[0], files[1], sizes[1], files[2], sizes[2], records, ROOM, &length), GABRO_DONE, GABRO_DONE,
                           GABRO_DONE);
    check_buffer(records, ROOM, length, code == GABRO_DONE);
    if (code != GABRO_DONE) {
        assert(length == 77);
        return code;
    }
    size_t items = check_merge(records, length, &conflicts);
    count = random_below(4) ? items : count;
    for (size_t i = 0; i < count; i++) {
        marks[i] = (char)random_below(2);
    }
    uint32_t wanted = count == items ? GABRO_DONE : GABRO_NO_ITEM;
    length = 77;
    code = one_of(gabro_merged_bytes(files[0], sizes[0], files[1], sizes[1], files[2], sizes[2], marks, count, out, room, &length), wanted, wanted,
                  wanted);
    check_buffer(out, room, length, code == GABRO_DONE);
    assert(code == GABRO_DONE ? length <= sizes[0] + sizes[1] + sizes[2] + 3 : length == 77);
    if (code == wanted) {
        static char marked[ROOM];
        size_t written = 77;
        memset(marked, GUARD, sizeof marked);
        code = one_of(gabro_marked_bytes(files[0], sizes[0], files[1], sizes[1], files[2], sizes[2], marks, count, "b", 1, "o", 1, "t", 1,
                                       random_below(12), marked, ROOM, &written), wanted, wanted, wanted);
        check_buffer(marked, ROOM, written, code == GABRO_DONE);
        assert(code == GABRO_DONE || written == 77);
    }
    if (code == wanted) {
        code = one_of(gabro_open_conflicts(files[0], sizes[0], files[1], sizes[1], files[2], sizes[2], marks, count, &open), wanted, wanted, wanted);
        assert(code == GABRO_DONE ? open <= conflicts : open == 77);
    }
    size_t left_out = 77;
    length = 77;
    memset(out, GUARD, sizeof out);
    code = one_of(gabro_without_blank_changes(files[0], sizes[0], files[1], sizes[1], out, room, &length, &left_out), GABRO_DONE, GABRO_DONE,
                  GABRO_DONE);
    check_buffer(out, room, length, code == GABRO_DONE);
    assert(code == GABRO_DONE ? length <= sizes[0] + sizes[1] && left_out <= sizes[1] : length == 77 && left_out == 77);
    return code;
}

/* A call that opens or closes a session. */
static uint32_t open_or_close(void) {
    has_labels = false;
    static const char json[] = "{\"is_read_only\":false,\"commits\":[{\"message\":\"m\"}],\"files\":[{\"old_path\":null,\"path\":\"p\","
                               "\"file_mode\":\"Absent\",\"sections\":[{\"Changed\":{\"lines\":[{\"is_checked\":true,\"change_type\":\"Added\","
                               "\"line\":\"x\\n\"}]}}]}]}";
    uint32_t which = random_below(5), code = GABRO_DONE;
    if (which == 0) {
        gabro_free(&session);
        assert(gabro_stage(&session) == GABRO_NONE);
    } else if (which == 1 || which == 4) {
        size_t length = sizeof json - 1 - random_below(2);
        code = which == 1 ? gabro_new(&session, json, length, 40, 10) : gabro_new_layer(&session, json, length, 40, 10);
        one_of(code, GABRO_DONE, GABRO_BAD_STATE, GABRO_DONE);
        assert(gabro_stage(&session) == (code == GABRO_DONE ? GABRO_WAITING : GABRO_NONE));
    } else {
        code = one_of(gabro_state_new(&session, random_below(4) == 0), GABRO_DONE, GABRO_DONE, GABRO_DONE);
        assert(gabro_stage(&session) == (code == GABRO_DONE ? GABRO_BUILDING : GABRO_NONE));
    }
    counts[GABRO_DONE] += which == 0;
    return code;
}

/* Makes a call of a kind, while the request for memory `refused` is refused, if it is not 0. Returns its code. */
static uint32_t make_call(uint32_t kind, uint32_t refused) {
    uint64_t before = asked();
    uint32_t stage = gabro_stage(&session);
    bool is_building = stage == GABRO_BUILDING, is_opening = kind < (stage == GABRO_NONE ? 30 : 2);
    bool is_begin = !is_opening && kind < (is_building ? 8 : 4);
    refused_after = refused;
    uint32_t code = is_opening ? open_or_close() : is_begin ? begin() : kind < (is_building ? 55 : 10) ? add_lines() : kind < (is_building ? 88 : 14) ? add_other()
        : kind < (is_building ? 90 : 62) ? input() : kind < (is_building ? 91 : 72) ? layer() : kind < 93 ? read_out() : kind < 95 ? decide() : kind < 97 ? merge() : answer();
    refused_after = 0;
    if (code != GABRO_DONE && !is_opening) {
        assert(is_begin && code == GABRO_NO_MEMORY ? gabro_stage(&session) == GABRO_ENDED : asked() == before);
    }
    return code;
}

static void exchange(void) {
    gabro_session other = session;
    session = twin;
    twin = other;
}

/* Makes the same call of the twin, which has all its memory, and looks that it has the same code and leaves the same answers. */
static void call_twin(uint32_t kind, uint64_t begun, uint32_t wanted) {
    uint64_t ended = seed, answers = asked();
    seed = begun;
    may_lack_memory = false;
    exchange();
    assert(make_call(kind, 0) == wanted && seed == ended && asked() == answers);
    exchange();
}

static void random_call(void) {
    uint32_t kind = random_below(100);
    may_lack_memory = CAN_REFUSE && random_below(8) == 0;
    uint32_t refused = may_lack_memory ? 1 + random_below(12) : 0;
    uint64_t begun = seed;
    uint32_t code = make_call(kind, refused);
    bool is_lost = gabro_end(&session) == GABRO_END_NO_MEMORY || (code == GABRO_NO_MEMORY && gabro_stage(&session) == GABRO_NONE);
    if (is_lost) {
        assert(gabro_state_new(&session, false) == GABRO_DONE && gabro_state_new(&twin, false) == GABRO_DONE);
    } else if (code != GABRO_NO_MEMORY) {
        call_twin(kind, begun, code);
    }
}

/* Adds a file by its two versions while one request for memory is refused: the first, then the second, until a call meets none. Each
 * refusal has its code, and leaves the state as it was. */
static void refuse_texts(void) {
    static const char old[] = "same\nold\nkept", new_bytes[] = "same\nnew\xff\nkept\n";
    assert(gabro_state_new(&session, false) == GABRO_DONE);
    uint64_t before = asked();
    for (uint32_t number = 1;; number++) {
        refused_after = number;
        uint32_t code = gabro_state_texts(&session, "p", 1, "q", 1, old, sizeof old - 1, 0100644, new_bytes, sizeof new_bytes - 1, 0100755);
        bool is_met = refused_after == 0;
        refused_after = 0;
        assert(code == (is_met ? GABRO_NO_MEMORY : GABRO_DONE) && (asked() == before) == is_met);
        if (!is_met) {
            assert(number > 10);
            gabro_free(&session);
            return;
        }
    }
}

int main(int argc, char **argv) {
    unsigned long count = argc > 1 ? strtoul(argv[1], NULL, 10) : 100000;
    seed = argc > 2 ? strtoull(argv[2], NULL, 10) : 1;
    memset(long_text, 'x', sizeof long_text);
    nowhere = open("/dev/null", O_RDWR);
    assert(nowhere >= 0);
    if (CAN_REFUSE) {
        refuse_texts();
    }
    for (unsigned long i = 0; i < count; i++) {
        random_call();
    }
    gabro_free(&session);
    gabro_free(&twin);
    for (int code = 0; code < CODES; code++) {
        printf("%d: %lu\n", code, counts[code]);
    }
    return 0;
}
