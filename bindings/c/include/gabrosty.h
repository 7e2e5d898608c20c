/* NAME
 *     gabrosty - a change selector: a user marks changes on a screen, and the program gets both sides of each file
 *
 * SYNOPSIS
 *     #include "gabrosty.h"
 *
 *     cc tool.c $(pkg-config --cflags --libs gabrosty)                                 the shared library, libgabrosty.so
 *     cc tool.c -I PREFIX/include PREFIX/lib/libgabrosty.a PREFIX/lib/liblibc_c.a    the static one
 *
 *     `tools/install PREFIX` of the repository installs these files, and PREFIX/lib/pkgconfig/gabrosty.pc.
 *
 * DESCRIPTION
 *     A program makes a state by calls (gabro_state_new, and gabro_state_texts for the two versions of each file), and begins a
 *     session with it (gabro_begin). Or it opens a session over a state in its JSON form (gabro_new). Then it passes the bytes that
 *     a terminal sent to gabro_type, and writes the bytes of gabro_paint to that terminal. It can also pass words of scripts to
 *     gabro_press ("j", "space", "ctrl-d", "click:3:7") and draw the screen itself. Once gabro_stage returns GABRO_ACCEPTED,
 *     gabro_side_bytes writes the two sides of each file. While it returns GABRO_EDITING, the user edits the message of a commit:
 *     gabro_text writes the message, and gabro_answer hands in the new one.
 *
 *         gabro_session session = {0};
 *         const char old[] = "Dear all,\nold\n", new[] = "Dear all,\nnew\n";
 *         static char bytes[1 << 20];
 *         size_t length;
 *         gabro_state_new(&session, false);
 *         gabro_state_texts(&session, "letter", 6, "", 0, old, sizeof old - 1, 0100644, new, sizeof new - 1, 0100644);
 *         gabro_begin(&session, 80, 24);
 *         gabro_press(&session, "a", 1);
 *         gabro_press(&session, "c", 1);
 *         if (gabro_stage(&session) == GABRO_ACCEPTED
 *             && gabro_side_bytes(&session, 0, true, bytes, sizeof bytes, &length) == GABRO_DONE) {
 *             fwrite(bytes, 1, length, stdout);
 *         }
 *         gabro_free(&session);
 *
 *     gabro_side_bytes also answers while the state is made and while it is shown: ask gabro_stage first. The words "l" and "h" move
 *     inwards (from a file to its sections, and on to their lines) and outwards, "j" and "k" to the next and the previous item
 *     that is shown, from the first file on. "space" checks or unchecks the selected item, "a" inverts every mark, "c"
 *     accepts, and "q" cancels. docs/RULES.md of the repository lists all words, under "Words", and all keys.
 *
 *     A program that only wants the answer has the user choose by one call, gabro_run, which does all that a terminal needs. No
 *     other call reads or writes a terminal: then the caller sets it to raw mode, and turns on its reports of clicks and its marks
 *     around pasted text (ESC [ ? 1000 ; 1006 h and ESC [ ? 2004 h).
 *
 *     Rows and columns are places on the screen, counted from 0. A wide symbol has two columns. A screen has at most
 *     GABRO_MAX_COLUMNS columns and GABRO_MAX_ROWS rows: of a larger window the library draws that many, from its top left corner.
 *     Texts are UTF-8 with a length, without a terminating zero. They are copied: the caller may free them after the call.
 *
 * OWNERSHIP
 *     A session owns its state, and all memory that the library has taken is freed by gabro_free. Nothing that a call writes to
 *     the caller's memory points into the session. The caller must keep these rules. Nothing checks them:
 *     - A gabro_session is all zeros before its first call ({0}), and only these functions write to it.
 *     - It is not copied: a call on a copy of an open session may use freed memory.
 *     - A pointer with a length points to `length` bytes. With the length 0 it may be null, or point anywhere: that is no text, or
 *       asks for a length alone. No other pointer is null, nor is that of the session but for gabro_free.
 *     - What a call writes to (`out`, `written`, `side`, `key` and so on) overlaps neither the session, nor what the call
 *       reads, nor each other.
 *     - A bool is 0 or 1.
 *     - A call that takes a `const` session leaves it as it was. But within the call it may write the members and what they point
 *       to. So the session is not defined as `const`, and two threads never use it at once, also not by two such calls.
 *     - Each open session is closed in the end (gabro_free), or its memory leaks. To close a closed session is a no-op.
 *
 * THREADS
 *     Apart from gabro_run, the library has no state of its own. One thread at a time uses a session, and different threads may use
 *     different sessions at once. A session may move to another thread, by a lock or a join. No signal handler calls the library,
 *     and neither does the child of a fork of a process with threads. Memory comes from malloc and realloc, and goes to free.
 *     gabro_run sets the handlers of signals, which a process has once: while one call runs, a second one is refused.
 *
 * ERRORS
 *     A call returns a code, or what its comment says. If a call returns another code than GABRO_DONE, it wrote nothing, and the
 *     session is as it was. The exceptions are said at gabro_new, gabro_state_new, gabro_begin and gabro_paint. A failed allocation
 *     always has the code GABRO_NO_MEMORY, with one exception: in gabro_press, gabro_press_all, gabro_press_and_count, gabro_type,
 *     gabro_type_to_key, gabro_click, gabro_idle, gabro_start, gabro_select, gabro_answer and gabro_answer_and_count the user's input is
 *     handled, and if an allocation fails in this, the call returns GABRO_DONE and the session has ended. Its stage is GABRO_ENDED, gabro_end returns GABRO_END_NO_MEMORY, and its text is "out of
 *     memory". The changes of such a session are lost.
 *
 *     A code is never a length. A call that returns a code writes a length or a count to its own parameter (`written`, `count`, `handled`,
 *     `side->length`), and only if the code is GABRO_DONE: ask for the code first, since any call that takes memory may fail.
 *     gabro_symbol and gabro_words return a length. gabro_words cannot fail, and gabro_symbol only on the status row of a layer. With GCC
 *     and Clang, GABRO_USE_CODE makes the compiler warn of a caller who drops the code of a call that writes a length.
 *
 * VERSION
 *     GABRO_VERSION is that of this header, and gabro_version returns that of the library. Within one major version a program
 *     that was built with an older header runs with a newer shared library. */
#ifndef GABROSTY_H
#define GABROSTY_H

#include <stdbool.h>
#include <stddef.h>
#include <stdint.h>

#ifdef __cplusplus
extern "C" {
#endif

/* 10,000 times the major number, 100 times the minor number, and the patch number. */
#define GABRO_VERSION 10100
#define GABRO_VERSION_TEXT "1.1.0"

/* The code of such a call has to be looked at. */
#if defined(__GNUC__)
#define GABRO_USE_CODE __attribute__((warn_unused_result))
#else
#define GABRO_USE_CODE
#endif

/* The most columns and rows of a screen. */
#define GABRO_MAX_COLUMNS 1000
#define GABRO_MAX_ROWS 1000

/* A session. All zeros if it is closed. Its members are the library's own. */
typedef struct gabro_session {
    bool is_open;
    void *at;
} gabro_session;

/* Return codes. `gabro_words` writes a sentence for each. */
enum {
    GABRO_DONE = 0,         /* the call was done */
    GABRO_CLOSED = 1,       /* the session is closed */
    GABRO_NOT_NOW = 2,      /* the session doesn't wait for this call now, or has no state to ask */
    GABRO_NO_WORD = 3,      /* the bytes are not the word of an event */
    GABRO_NOT_TEXT = 4,     /* the bytes are not UTF-8 */
    GABRO_BAD_STATE = 5,    /* the text is not the JSON form of a state */
    GABRO_NOT_ACCEPTED = 6, /* the state passes a limit; docs/RULES.md lists the limits, under "Limits" */
    GABRO_TOO_LONG = 7,     /* a text or a line has more than 1,000,000 bytes */
    GABRO_NO_MEMORY = 8,    /* an allocation failed */
    GABRO_NO_ITEM = 9,      /* the state has no such file, section, line or commit */
    GABRO_NO_NUMBER = 10,   /* the number stands for nothing that the call takes */
    GABRO_NO_KEY = 11,      /* a part of the text is no key with what it does */
};

/* The stage of a session: what it waits for. */
enum {
    GABRO_WAITING = 0,  /* an event */
    GABRO_EDITING = 1,  /* the message of a commit */
    GABRO_ACCEPTED = 2, /* nothing, since the changes are accepted */
    GABRO_ENDED = 3,    /* nothing, since an error ended the session, or the user cancelled it */
    GABRO_NONE = 4,     /* nothing, since the session is closed */
    GABRO_BUILDING = 5, /* additions to its state, and `gabro_begin` */
};

/* How a session ended. The codes from GABRO_END_SET_UP on are of a recorder that owns a terminal: no call leads to them. */
enum {
    GABRO_NOT_ENDED = 0,     /* it has not ended, or is closed */
    GABRO_END_ACCEPTED = 1,  /* the changes are accepted */
    GABRO_END_CANCELLED = 2, /* the user cancelled */
    GABRO_END_NO_MEMORY = 3, /* an allocation failed */
    GABRO_END_SET_UP = 4,    /* the terminal could not be set up */
    GABRO_END_CLEAN_UP = 5,  /* the terminal could not be cleaned up */
    GABRO_END_RENDER = 6,    /* a frame could not be drawn */
    GABRO_END_READ = 7,      /* the input failed */
    GABRO_END_SERIALIZE = 8, /* the state could not be written as JSON */
    GABRO_END_WRITE = 9,     /* a file could not be written */
    GABRO_END_OTHER = 10,    /* any other failure */
    GABRO_END_BUG = 11,      /* a bug of the selector */
};

/* The dialog that lies over the screen. */
enum {
    GABRO_NO_DIALOG = 0,
    GABRO_QUESTION = 1, /* whether to quit */
    GABRO_HELP = 2,
};

/* The owner of a place on the screen: the component that a click there acts on. */
enum {
    GABRO_NOBODY = 0,    /* no owner */
    GABRO_MENU = 1,      /* the menu bar, or the title of a menu */
    GABRO_MENU_ITEM = 2, /* an item of the open menu */
    GABRO_BUTTON = 3,    /* the button of a commit's message, with the commit in the key, or of a dialog */
    GABRO_FILE = 4,      /* the header of a file */
    GABRO_SECTION = 5,   /* the header of a section of changed lines */
    GABRO_MARK = 6,      /* the checkbox of a file, a section or a line */
    GABRO_FOLD = 7,      /* the box that folds a file or a section */
    GABRO_DIALOG = 8,    /* a dialog, outside its buttons */
    GABRO_ADDED = 9,     /* an added line */
    GABRO_REMOVED = 10,  /* a removed line */
    GABRO_CONTEXT = 11,  /* a section of context lines */
    GABRO_MODE = 12,     /* a section that changes the file's mode */
    GABRO_BINARY = 13,   /* a section that changes a file's bytes */
    GABRO_FILE_EDGE = 14, /* the columns of a file that are left of its sections */
};

/* The contents of a side of a file. */
enum {
    GABRO_SIDE_UNCHANGED = 0, /* the contents do not change: there is nothing to write */
    GABRO_SIDE_TEXT = 1,      /* the contents are the text that `gabro_side` writes, which may be empty */
    GABRO_SIDE_BINARY = 2,    /* the contents are binary, and the caller has them */
};

/* The mark of a file, a section or a line. */
enum {
    GABRO_UNCHECKED = 0, /* nothing is checked, or there is no item */
    GABRO_PARTLY = 1,    /* some items are checked */
    GABRO_CHECKED = 2,   /* all items are checked */
};

/* The colour of a place: the terminal's own, or one of the eight basic ones. */
enum {
    GABRO_COLOUR_NONE = 0,
    GABRO_BLACK = 1,
    GABRO_RED = 2,
    GABRO_GREEN = 3,
    GABRO_YELLOW = 4,
    GABRO_BLUE = 5,
    GABRO_MAGENTA = 6,
    GABRO_CYAN = 7,
    GABRO_WHITE = 8,
};

/* The attributes of a place. */
enum {
    GABRO_BOLD = 1,
    GABRO_DIM = 2,
    GABRO_UNDERLINED = 4,
    GABRO_REVERSED = 8, /* the colours of the symbol and of its background are exchanged */
};

/* Stands for no section and no line in a key, and for what a place does not belong to. */
#define GABRO_NO_INDEX SIZE_MAX

/* The mode of a file that does not exist. Any other mode is the bits of Unix, as 0100644. */
#define GABRO_ABSENT SIZE_MAX

/* A commit, a file, a section and a line. Each is an index, counted from 0: of the file in the state, of the section in its
 * file, of the line in its section. */
typedef struct gabro_key {
    size_t commit;
    size_t file;
    size_t section;
    size_t line;
} gabro_key;

/* One side of a file. */
typedef struct gabro_side_info {
    uint32_t contents; /* GABRO_SIDE_UNCHANGED to GABRO_SIDE_BINARY */
    size_t mode;       /* the mode of the file on this side, or GABRO_ABSENT */
    size_t length;     /* the number of bytes of its text, and 0 if the contents are no text */
} gabro_side_info;

/* One place of a screen. Its symbol is `length` bytes of the text of the screen, from `start` on. */
typedef struct gabro_cell {
    size_t start;
    size_t length;       /* the number of bytes of the symbol that begins here, and 0 at a later column of a symbol */
    size_t columns;      /* the number of columns of the symbol that begins here, and 0 at a later column of a symbol */
    uint32_t foreground; /* GABRO_COLOUR_NONE to GABRO_WHITE */
    uint32_t background; /* GABRO_COLOUR_NONE to GABRO_WHITE */
    uint32_t flags;      /* the sum of GABRO_BOLD, GABRO_DIM, GABRO_UNDERLINED and GABRO_REVERSED, of those that it has */
} gabro_cell;

/* The size of a screen that is told as cells. */
typedef struct gabro_screen_info {
    size_t columns;
    size_t rows;   /* with the status row of a layer */
    size_t length; /* the number of bytes of the text of its symbols */
} gabro_screen_info;

/* ---- A state by calls ----
 *
 * After `gabro_state_new` the stage is GABRO_BUILDING. Each of the calls below adds at the end of the state: commits, files, and
 * the sections of the last file. Give all lines of a file, also those far from its changes: the sides are made of these lines.
 * If its contents are not UTF-8, add them as binary (`gabro_state_binary`). A file that is created or deleted also needs a
 * change of its mode (`gabro_state_mode`). `gabro_state_texts` does all this by the bytes of the two versions.
 *
 * The calls return GABRO_DONE, or the first of these that applies, and then the state is as it was:
 *
 *   GABRO_NOT_TEXT      a text is not UTF-8
 *   GABRO_CLOSED        the session is closed
 *   GABRO_NOT_NOW       the session has begun
 *   GABRO_NO_ITEM       there is no file for the section
 *   GABRO_TOO_LONG      a text or a line has more than 1,000,000 bytes
 *   GABRO_NOT_ACCEPTED  there are two commits already
 *   GABRO_NO_MEMORY     an allocation failed */

/* Opens `session` over a state without commits and files. If `is_read_only`, the user cannot change the marks. If `session` is
 * open, closes it first.
 *
 * Returns GABRO_DONE, or GABRO_NO_MEMORY; then the session is closed. */
uint32_t gabro_state_new(gabro_session *session, bool is_read_only);

/* Adds a commit with a message, `length` bytes of `text`, which the user can edit. A state has at most two commits. The first
 * one gets the selected changes. */
uint32_t gabro_state_message(gabro_session *session, const char *text, size_t length);

/* Adds a commit without a message. A session adds such commits up to two by itself. */
uint32_t gabro_state_commit(gabro_session *session);

/* Adds a file: its path, its path before a rename or a copy (none, if `old_length` is 0), and its mode before the changes,
 * GABRO_ABSENT if it is new. */
uint32_t gabro_state_file(gabro_session *session, const char *path, size_t length, const char *old_path, size_t old_length,
                        size_t mode);

/* Adds context lines to the last file: those of `text`, of `length` bytes. A line ends behind its line feed, and the last one
 * may lack it. The lines go to the file's last section if that has context lines, and else begin a section. Without a line
 * this is a no-op. */
uint32_t gabro_state_context(gabro_session *session, const char *text, size_t length);

/* Adds changed lines to the last file: those of `text`, as `gabro_state_context` cuts it. They are added lines if `is_added`, and
 * else removed lines, and checked if `is_checked`. They go to the file's last section if that has changed lines, and else begin
 * a section. */
uint32_t gabro_state_changes(gabro_session *session, bool is_added, bool is_checked, const char *text, size_t length);

/* Adds one line to the last file, which is the whole of `text`: it may be empty, have line feeds inside, or lack one at its
 * end. It is a changed line if `is_changed`, an added one if `is_added` or else a removed one, and checked if `is_checked`. If
 * not `is_changed`, it is a context line, and the two others do not matter. It goes where `gabro_state_changes` or
 * `gabro_state_context` would put it. */
uint32_t gabro_state_line(gabro_session *session, bool is_changed, bool is_added, bool is_checked, const char *text,
                        size_t length);

/* Begins a section of the last file: of changed lines if `is_changed`, or else of context lines. It has no lines yet. Call this
 * only between lines of one kind that are to be in two sections. */
uint32_t gabro_state_section(gabro_session *session, bool is_changed);

/* Adds a section that changes the mode of the last file to `mode`, or to GABRO_ABSENT if it is deleted. Only the first such
 * section of a file counts: if it is checked, the selected side has `mode` and the other side the mode of the file, and else
 * the reverse. */
uint32_t gabro_state_mode(gabro_session *session, bool is_checked, size_t mode);

/* Adds a section that changes the binary contents of the last file. The texts describe the old and the new contents to the
 * user. One of length 0 is none. */
uint32_t gabro_state_binary(gabro_session *session, bool is_checked, const char *old_text, size_t old_length,
                          const char *new_text, size_t new_length);

/* Adds a file by its two versions, whatever their bytes are: the library finds the lines that differ. `old` has the bytes before
 * the changes, `old_size` of them, with the mode `old_mode`, and `new_bytes` those after them. A mode GABRO_ABSENT says that the
 * file does not exist in that version; then its bytes do not matter. The path before a rename or a copy has `old_length` bytes,
 * none if that is 0. Nothing is checked. The file has a change of the mode if the modes differ, and all lines of both versions.
 *
 * Read the sides of such a file by `gabro_side_bytes`: with nothing checked the selected side is the old version, byte for byte,
 * and with all checked the new one. A last line without a line end differs from the same line with one. A byte that is not UTF-8
 * is shown as U+FFFD, and comes back as it was; in `gabro_line`, and for the limit of a line, it is a character of four bytes.
 *
 * Only the paths have to be UTF-8: else the call returns GABRO_NOT_TEXT. A caller who has other paths hands in what is shown of them, with
 * U+FFFD for such bytes, and keeps the paths by the indices of their files. A file with a NUL is taken as text, too. A caller who
 * shows such files as binary, as git does, looks for a NUL (memchr), and adds them by `gabro_state_file` and `gabro_state_binary`. */
uint32_t gabro_state_texts(gabro_session *session, const char *path, size_t length, const char *old_path, size_t old_length,
                         const char *old, size_t old_size, size_t old_mode, const char *new_bytes, size_t new_size,
                         size_t new_mode);

/* Sets the marks of file `file`, counted from 0, to `count` bytes at `marks`: a byte for each of its items in order, as `gabro_marks`
 * writes them, 1 for a checked one. Any other byte is of one that is not checked. Nothing else changes. So a file begins partly
 * checked, or a selection goes on where the marks of another session ended. Call this once the file has all its sections. The marks
 * are taken as they are: no other mark follows them, as it may follow a toggle of the user (docs/RULES.md, under "Items and marks").
 *
 * Returns GABRO_DONE, or the first of GABRO_CLOSED, GABRO_NOT_NOW if the session has begun, and GABRO_NO_ITEM if there is no such file or it
 * has more or fewer items than there are marks. It takes no memory. */
uint32_t gabro_state_marks(gabro_session *session, size_t file, const char *marks, size_t count);

/* Begins the session with the state that is made, on a screen of `width` columns and `height` rows. The session takes the state
 * over, and nothing is copied.
 *
 * Returns GABRO_DONE, GABRO_CLOSED, GABRO_NOT_NOW if the session has begun, or GABRO_NOT_ACCEPTED if the state has more than 16,000,000
 * files, sections and lines together. Or returns GABRO_NO_MEMORY; then the session has ended, and its stage is GABRO_ENDED. */
uint32_t gabro_begin(gabro_session *session, uint16_t width, uint16_t height);

/* ---- A state in its JSON form ---- */

/* Opens `session` over the state with the JSON form `json`, of `length` bytes, on a screen of `width` columns and `height`
 * rows. If `session` is open, closes it first.
 *
 * Returns GABRO_DONE, or the first of GABRO_NOT_TEXT, GABRO_BAD_STATE and GABRO_NOT_ACCEPTED that applies, or GABRO_NO_MEMORY. If it does
 * not return GABRO_DONE, the session is closed. */
uint32_t gabro_new(gabro_session *session, const char *json, size_t length, uint16_t width, uint16_t height);

/* ---- A layer over the session ----
 *
 * A session may begin with a layer, which hears the terminal first and gives the user more: a status row, search, ranges, undo,
 * columns to the right, words that differ, and colours of another theme. docs/RULES.md has its keys, under "Keys of the layer".
 * Each thing that it does is events and new sizes of the session beneath, so all that is promised of a session stays true of that
 * one. Without such a call there is no layer.
 *
 * The last row of the terminal is the status row. The other rows show the session's screen, from a column on that the user
 * chooses: `gabro_owner`, `gabro_symbol` and `gabro_click` take places of the terminal. The status row is nobody's: `gabro_symbol`,
 * `gabro_text` and `gabro_cells` tell it, too. Words ("click:3:7") are events of the session beneath, so a click in a word is at a column
 * of its whole screen, which `gabro_text` writes. `gabro_type_to_key` tells keys that mean something to the layer too, but none while it asks for a text: then it hears all
 * keys. What words and clicks change is not the user's to undo: if marks change, nothing before is undone either. */

/* Begins the session as `gabro_begin` does, with a layer, on a terminal of `width` columns and `height` rows.
 *
 * Returns the same codes as `gabro_begin`. */
uint32_t gabro_begin_layer(gabro_session *session, uint16_t width, uint16_t height);

/* Opens `session` as `gabro_new` does, with a layer, on a terminal of `width` columns and `height` rows.
 *
 * Returns the same codes as `gabro_new`. */
uint32_t gabro_new_layer(gabro_session *session, const char *json, size_t length, uint16_t width, uint16_t height);

/* The colours of the terminal. */
enum {
    GABRO_DARK = 0,       /* a dark background: light colours */
    GABRO_LIGHT = 1,      /* a light background */
    GABRO_SIXTEEN = 2,    /* sixteen colours: each colour is the bright one */
    GABRO_NO_COLOURS = 3, /* none: bold, underlined and reversed alone */
};

/* Has the layer paint in the colours of `theme`, GABRO_DARK to GABRO_NO_COLOURS. It begins with GABRO_DARK. The next `gabro_paint` writes
 * every row.
 *
 * Returns GABRO_DONE, or the first of GABRO_NO_NUMBER, GABRO_CLOSED, and GABRO_NOT_NOW if there is no layer, or none any more. */
uint32_t gabro_theme(gabro_session *session, uint32_t theme);

/* Sets the words by which the status row says what accepting does, as "c commits": `length` bytes of `text`. It begins without
 * words.
 *
 * Returns GABRO_DONE, or the first of GABRO_TOO_LONG, GABRO_NOT_TEXT, GABRO_CLOSED, and GABRO_NOT_NOW if there is no layer, or none any
 * more. May return GABRO_NO_MEMORY instead, if the text is short enough and UTF-8. */
uint32_t gabro_accept_text(gabro_session *session, const char *text, size_t length);

/* Has the layer show `length` bytes of `text` on the row of section `section` of file `file`, both counted from 0, in place of its own
 * text: the number of changed lines, "Section 1/6", a mode, or binary contents. It has replacements for what a screen cannot show, and
 * is cut off as that text is. The checkbox and the fold sign keep their columns, and no other row changes. The next `gabro_paint` shows
 * it; `gabro_symbol` stays as it was. While a menu or a dialog is open, or two commits are shown, rows have their own texts. "" takes the
 * label away. A section that the state has not, or of context, shows nothing.
 *
 * Returns GABRO_DONE, or the first of GABRO_TOO_LONG, GABRO_NOT_TEXT, GABRO_CLOSED, and GABRO_NOT_NOW if there is no layer, or none any
 * more. May return GABRO_NO_MEMORY instead, if the text is short enough and UTF-8. */
uint32_t gabro_label(gabro_session *session, size_t file, size_t section, const char *text, size_t length);

/* Has the layer show behind the title of each section of changed lines the line that the section stands in, as git shows it behind `@@`:
 * "Section 3/7  fn main() {". That is the last line of the old version, above the first changed line, that begins with a letter of
 * ASCII, `_` or `$`: its first 80 bytes, in whole characters, without white space at the end. If there is none, the row stays. It is a
 * label as that of `gabro_label`, which such a call replaces; a section that has a label keeps it. Call this once, behind the calls of
 * `gabro_label`: then what comes later finds each label quickly, however many there are.
 *
 * Returns GABRO_DONE, GABRO_CLOSED, or GABRO_NOT_NOW if the session has no layer or waits for no event. Or returns GABRO_NO_MEMORY; then
 * some sections show that line. */
uint32_t gabro_name_sections(gabro_session *session);

/* What is unfolded at the start. */
enum {
    GABRO_AS_IT_IS = 0,  /* what is unfolded already */
    GABRO_ALL_FOLDED = 1, /* nothing */
    GABRO_ALL_OPEN = 2,  /* everything */
    GABRO_OPEN_IF_IT_FITS = 3, /* everything, if the screen then shows all of it; or else what is unfolded already */
};

/* Unfolds what `folds` says, GABRO_AS_IT_IS to GABRO_OPEN_IF_IT_FITS, and selects the item that `first` names, which unfolds what it
 * lies in. If there is no such item, as with each index GABRO_NO_INDEX, the selection stays. Nothing else changes, and no mark. The
 * commit of the key is 0 as long as one commit is shown. Call this on the terminal's size, before the user types.
 *
 * Returns GABRO_DONE, or the first of GABRO_NO_NUMBER, GABRO_CLOSED, and GABRO_NOT_NOW if the session has no layer or waits for no event.
 * If an allocation fails, it returns GABRO_DONE and the session has ended, as with `gabro_press`. */
uint32_t gabro_start(gabro_session *session, uint32_t folds, const gabro_key *first);

/* Sets the keys of the user's own, in place of those before: `length` bytes of `text`, with a part KEY=WORD for each key, separated
 * by spaces. KEY is the word of a key in scripts ("x", "shift-X", "ctrl-n", "pagedown"; "shift-h" and "shift-l" for H and L;
 * but not "="), or "home" or "end", also behind "ctrl-", "alt-" or "shift-". WORD is the word of an event ("j", "space", "ctrl-d",
 * "none"), or an action of the layer: "search", "next" and "previous" (search again), "first", "last", "next-section",
 * "previous-section", "next-file" and "previous-file" (select an item), "range" (begins or ends one), "mark" (marks the range), "undo",
 * "redo" or "nothing". Such a key comes before the keys of
 * the layer and of the session. While a dialog is open, only events count; while a text is asked for, none. The last of two equal
 * keys counts. "click=select" says that a click on the box of an item selects the item first, and acts on the box if the item is
 * selected; otherwise one click acts. "" takes all keys away.
 *
 * Returns GABRO_DONE, or the first of GABRO_NO_KEY, GABRO_CLOSED, and GABRO_NOT_NOW if the session has no layer or waits for no event; or
 * GABRO_NO_MEMORY. */
uint32_t gabro_keys(gabro_session *session, const char *text, size_t length);

/* Begins to log the calls of the session beneath the layer. Call this before the first of them, right behind `gabro_begin_layer` or
 * `gabro_new_layer`. The log stays behind an accepted state, and takes memory for each call. If an allocation fails for the log, the
 * session goes on without it.
 *
 * Returns GABRO_DONE, GABRO_CLOSED, or GABRO_NOT_NOW if a call was made before, or the session has no layer or waits for no event. */
uint32_t gabro_log(gabro_session *session);

/* Writes the calls that `gabro_log` began to log to `out`, clipped to its `length` bytes, and their whole length to `written`. A
 * session without a layer that begins with the same state, and to which the same calls are made, gets to where the session
 * beneath is. Each line is a call:
 *
 *     size 80 23          the columns and rows of the screen: on the first line, and where it gets another size (`gabro_resize`)
 *     batch j space       events, as one batch (`gabro_press_all`)
 *     select 0 2 5        a jump to line 5 of section 2 of file 0, each counted from 0; to a section or a file by fewer numbers
 *     answer "fix it"     the message that was asked for, as a string of JSON (`gabro_answer`)
 *
 * docs/RULES.md says, under "The log of a layer", which moves do what a jump does, and how the lines are a script.
 *
 * Returns GABRO_DONE, GABRO_CLOSED, GABRO_NOT_NOW if there is no log, the session has ended in an error or the user cancelled it, or
 * GABRO_NO_MEMORY, also if an
 * allocation failed before for the log. */
GABRO_USE_CODE uint32_t gabro_logged(const gabro_session *session, char *out, size_t length, size_t *written);

/* ---- The user's input ---- */

/* Returns the stage: GABRO_WAITING to GABRO_BUILDING. */
uint32_t gabro_stage(const gabro_session *session);

/* Returns how the session ended: GABRO_NOT_ENDED to GABRO_END_BUG. */
uint32_t gabro_end(const gabro_session *session);

/* Returns which dialog is open: GABRO_NO_DIALOG to GABRO_HELP. GABRO_HELP says nothing of the question, over which the help may lie. Returns
 * GABRO_NO_DIALOG while the session waits for no event. */
uint32_t gabro_dialog(const gabro_session *session);

/* Handles `length` bytes from a terminal. They may be any part of its output: a key or a click may be cut between two
 * calls. Handles each key, click and turn of the wheel in order, as long as the session waits for an event. The input after
 * that is dropped, since the user typed it at another screen. Pasted text acts as no key.
 *
 * Returns GABRO_DONE, GABRO_CLOSED or GABRO_NOT_NOW. After GABRO_DONE, `gabro_stage` returns whether the session has ended, and `gabro_end`
 * how. */
uint32_t gabro_type(gabro_session *session, const char *bytes, size_t length);

/* Handles `length` bytes from a terminal as `gabro_type` does, up to the first key that means nothing to a session, so that a front
 * end can have keys of its own. Writes the number of bytes that it took to `taken`, and that key to `key`: its character (9 for
 * Tab), or of a small letter with Ctrl 1 to 26. Call it again with the other bytes then. If they have no such key, it takes all
 * bytes, and `key` is 0; so it does if the session waits for no event after those that it took. A key without a character, or
 * with other modifiers, is not told. While a layer asks for a text, `key` is 0, also where it takes only a part of the bytes.
 *
 * Returns the same codes as `gabro_type`. */
GABRO_USE_CODE uint32_t gabro_type_to_key(gabro_session *session, const char *bytes, size_t length, size_t *taken, uint32_t *key);

/* Handles the silence of the terminal. Call this if no byte came for about 50 milliseconds. If the last byte was an ESC, it
 * is now the Esc key, not the beginning of another key. The rest of any other unfinished sequence may still come. Within a
 * paste, call it too: Ctrl-C between two silences ends the paste and is the key. To call it again for the same silence is a
 * no-op.
 *
 * Returns the same codes as `gabro_type`. */
uint32_t gabro_idle(gabro_session *session);

/* Writes the words of what `length` bytes from a terminal mean to `out`, if they fit into its `room` bytes, and their length to
 * `written`. Each word has a space behind it. A key that means nothing has the word "none". Nothing is handled: a program that
 * only wants to know what was typed makes a session for that (gabro_state_new), which it need not begin. The bytes may be any part
 * of a terminal's output, as for gabro_type, and `gabro_press_all` takes the words. The beginning of a key that was cut is kept where
 * `gabro_type` keeps it: what one of the two calls began, the other one ends.
 *
 * Returns GABRO_DONE, GABRO_CLOSED or GABRO_NO_MEMORY. If `written` is more than `room` after GABRO_DONE, no byte was written and none was
 * heard: call again with a larger buffer. */
GABRO_USE_CODE uint32_t gabro_decode(gabro_session *session, const char *bytes, size_t length, char *out, size_t room,
                                 size_t *written);

/* Writes the word of what a silence of the terminal means, if anything, as `gabro_decode` does. Call this when you would call
 * `gabro_idle`.
 *
 * With a `room` of 0 nothing is heard, and `written` is more than 0 if the last byte was an ESC that a silence would make the Esc key:
 * then a program has to wait for the silence. Within a paste `written` is 0, and silences only let Ctrl-C end it. */
GABRO_USE_CODE uint32_t gabro_decode_idle(gabro_session *session, char *out, size_t room, size_t *written);

/* Handles the event of a script's word, which has `length` bytes. The word "shot" is not the word of an event.
 *
 * Returns GABRO_DONE, or the first of GABRO_NO_WORD, GABRO_CLOSED and GABRO_NOT_NOW that applies. */
uint32_t gabro_press(gabro_session *session, const char *word, size_t length);

/* Handles the events of words, `length` bytes of text, as one batch. The words are separated by one or more spaces, and there may
 * be none. A batch has one frame: each click acts on what was drawn before the batch, and the screen is drawn behind the last
 * event. So a program that reads several events at once hands them in as the recorder of docs/RULES.md does. If an event ends the
 * session, the later ones are dropped. If an event asks for a message, gabro_answer handles the later ones.
 *
 * Returns GABRO_DONE, or the first of GABRO_NO_WORD, GABRO_CLOSED and GABRO_NOT_NOW that applies, or GABRO_NO_MEMORY. */
uint32_t gabro_press_all(gabro_session *session, const char *words, size_t length);

/* Handles the events of words as `gabro_press_all` does, and writes to `handled` how many of them were handled: those up to the first
 * that ended the session or asked for a message, that one included, and else all. An event that a clicked menu item leaves is none of
 * the batch: it is handled behind all of them. If an allocation fails while the events are handled, the session has ended, and `handled` may be
 * 0 instead. The session has to be one without a layer.
 *
 * Returns the same codes as `gabro_press_all`, and GABRO_NOT_NOW if the session has a layer. */
GABRO_USE_CODE uint32_t gabro_press_and_count(gabro_session *session, const char *words, size_t length, size_t *handled);

/* Handles a click at `row`, `column` of the screen, or of the terminal of a layer.
 *
 * Returns GABRO_DONE, GABRO_CLOSED or GABRO_NOT_NOW. */
uint32_t gabro_click(gabro_session *session, uint16_t row, uint16_t column);

/* Selects the item that `key` names, unfolds what it lies in, and scrolls so that the screen shows it: as moves of the selection
 * would. So a line `select` of a log is a call. The commit of the key is 0 as long as one commit is shown.
 *
 * Returns GABRO_DONE, or the first of GABRO_CLOSED, GABRO_NOT_NOW if the session waits for no event, and GABRO_NO_ITEM if the key names no
 * file, no section with a checkbox and no changed line, or the quit dialog is open. If an allocation fails, it returns GABRO_DONE and
 * the session has ended, as with `gabro_press`. */
uint32_t gabro_select(gabro_session *session, const gabro_key *key);

/* Answers with the message that the session waits for, `length` bytes of `text`. If an event of a batch asked for it, the later
 * events of the batch are handled then, and may ask for a message again.
 *
 * Returns GABRO_DONE, or the first of GABRO_TOO_LONG, GABRO_NOT_TEXT, GABRO_CLOSED and GABRO_NOT_NOW that applies. May return
 * GABRO_NO_MEMORY instead, if the text is short enough and UTF-8. */
uint32_t gabro_answer(gabro_session *session, const char *text, size_t length);

/* Answers as `gabro_answer` does, and writes to `handled` how many of the later events of the batch were handled: those up to the first
 * that ended the session or asked for a message, that one included, and else all. If an event that a clicked menu item left asked for the
 * message, the batch has no later events, and the events that menu items left behind that one are counted. If an allocation fails while the
 * events are handled, the session has ended, and `handled` may be 0 instead. The session has to be one without a layer.
 *
 * Returns the same codes as `gabro_answer`, and GABRO_NOT_NOW if the session has a layer. */
GABRO_USE_CODE uint32_t gabro_answer_and_count(gabro_session *session, const char *text, size_t length, size_t *handled);

/* Resizes the screen to `width` columns and `height` rows. The scroll offset stays: the word "ensure" scrolls to the
 * selection.
 *
 * Returns GABRO_DONE, GABRO_CLOSED, GABRO_NOT_NOW or GABRO_NO_MEMORY. */
uint32_t gabro_resize(gabro_session *session, uint16_t width, uint16_t height);

/* ---- The screen ---- */

/* Writes the bytes that make the terminal show the session, in colours, to `out`, if they fit into its `length` bytes, and
 * their number to `written`. The terminal has the session's size. The first call writes every row. A later call writes the
 * rows that changed since the last call, and expects that nobody else wrote to the terminal. If no row changed, there are no bytes. Else
 * they are one synchronized update (`ESC [ ? 2026 h` to `ESC [ ? 2026 l`), after which no colour is set. While rows are written no symbol
 * wraps (`ESC [ ? 7 l`), and after them symbols wrap (`ESC [ ? 7 h`).
 *
 * The terminal that shows these bytes
 * - reads UTF-8, and follows moves of the cursor, styles, and the modes `ESC [ ? 7 l` and `ESC [ ? 7 h`;
 * - gives a printable ASCII character one column, and with wrapping off writes a symbol whose characters have room side by
 *   side on its row alone. It may give other symbols any width;
 * - has the session's size, without margins, and neither origin mode nor insert mode is on;
 * - does not reorder right-to-left text.
 * Then each printable ASCII character of the screen is in its column in its style, and no row changes but those that are
 * written. If the terminal also has the widths of Unicode 18, it shows exactly the screen, with `?` and blanks for a symbol
 * that might not have room on its row.
 *
 * Returns GABRO_DONE, GABRO_CLOSED, or GABRO_NOT_NOW if the session waits for no event. If `written` is more than `length` after
 * GABRO_DONE, no byte was written, and the next call writes every row: call again with a larger buffer. Or returns GABRO_NO_MEMORY;
 * then the next call writes every row. */
GABRO_USE_CODE uint32_t gabro_paint(gabro_session *session, char *out, size_t length, size_t *written);

/* Makes the next `gabro_paint` write every row. Call this if the terminal shows anything else than the last paint. After a
 * resize it is not needed.
 *
 * Returns GABRO_DONE or GABRO_CLOSED. */
uint32_t gabro_repaint(gabro_session *session);

/* Writes the screen as cells, for a host that draws it by its own means, as within a part of its own screen: one for each place, row by
 * row, with the status row of a layer, in the theme and with the labels of `gabro_paint`. They are what `gabro_paint` brings a terminal to.
 * The cells go to `cells`, clipped to `count` of them, the text of their symbols to `out`, clipped to `room` bytes, and the size of the
 * screen to `info`. There are `info->columns` times `info->rows` cells. If that is more than `count`, or `info->length` more than `room`,
 * call again with larger buffers. Nothing counts as painted. The background is the terminal's own at each place. A host gives the selector
 * a part of its screen by that part's size (`gabro_begin`, `gabro_resize`), and `gabro_click` the places within it.
 *
 * Returns GABRO_DONE, GABRO_CLOSED, GABRO_NOT_NOW if the session waits for no event, or GABRO_NO_MEMORY. */
GABRO_USE_CODE uint32_t gabro_cells(const gabro_session *session, gabro_cell *cells, size_t count, char *out, size_t room,
                                gabro_screen_info *info);

/* Writes the key of the owner at `row`, `column` of the screen to `key`. An index that the owner has not is GABRO_NO_INDEX.
 *
 * Returns the owner: GABRO_NOBODY to GABRO_FILE_EDGE. Returns GABRO_NOBODY while the session waits for no event. */
uint32_t gabro_owner(const gabro_session *session, uint16_t row, uint16_t column, gabro_key *key);

/* Writes the key of the selected item to `key`. Each index that it has not is GABRO_NO_INDEX: of a file the section and the line,
 * of a section the line, and all if nothing is selected.
 *
 * Returns GABRO_DONE, GABRO_CLOSED, or GABRO_NOT_NOW if the session waits for no event. */
GABRO_USE_CODE uint32_t gabro_selected(const gabro_session *session, gabro_key *key);

/* Writes where the selected item is: the index of its file, counted from 0, to `file`, and the number of its first line in the old and in
 * the new version of that file, each counted from 1, to `old_line` and `new_line`. That is one more than the lines of the version before the
 * item: so a line that a version has not is where its next line is, and a file is at 1.
 *
 * Returns GABRO_DONE, GABRO_CLOSED, or GABRO_NOT_NOW if nothing is selected, or the session waits for no event. */
GABRO_USE_CODE uint32_t gabro_selected_line(const gabro_session *session, size_t *file, size_t *old_line, size_t *new_line);

/* Writes the symbol that begins at `row`, `column` of the screen to `out`, clipped to `length` bytes.
 *
 * Returns the whole length in bytes. Returns 0 at the second column of a wide symbol, outside the screen, and while the session waits for
 * no event. The status row of a layer is the row below the session's rows. It takes memory to tell it: if an allocation fails, the
 * call returns 0 there. */
size_t gabro_symbol(const gabro_session *session, uint16_t row, uint16_t column, char *out, size_t length);

/* Writes the text of the session's stage to `out`, clipped to `length` bytes, and the whole length in bytes to `written`.
 *
 * The text of GABRO_WAITING is the screen's rows, each in quotes and with a line end, and below them the status row of a layer, which is
 * as wide as the terminal; of GABRO_EDITING the message before the edit; of GABRO_ENDED the error's sentence ("cancelled by user" if the user cancelled). That of
 * GABRO_BUILDING is empty. The text of GABRO_ACCEPTED is a report for scripts: the line `accepted`, a line with the state's JSON form,
 * and three lines for each file: `file I`, `selected MODE C` and `unselected MODE C`. I is the file's index, counted from 0. The
 * last two lines are the file's two sides: MODE is octal digits or `<absent>`. C is `unchanged`, `text "T"` or `binary OLD NEW`,
 * with texts as JSON strings or `null`.
 *
 * Returns GABRO_DONE, GABRO_CLOSED or GABRO_NO_MEMORY. */
GABRO_USE_CODE uint32_t gabro_text(const gabro_session *session, char *out, size_t length, size_t *written);

/* ---- The answer ----
 *
 * These calls ask for the state: the one that is made (GABRO_BUILDING), shown (GABRO_WAITING) or accepted (GABRO_ACCEPTED). They
 * return GABRO_DONE, or the first of GABRO_CLOSED, GABRO_NOT_NOW (at any other stage) and GABRO_NO_ITEM that applies.
 *
 * While the session waits for an event, they are a preview: what they write is what they write once it is accepted, byte for byte, if
 * the next event is "c" and no dialog is open. While the user edits a message (GABRO_EDITING) they do not answer. */

/* Writes the number of files to `count`. */
GABRO_USE_CODE uint32_t gabro_files(const gabro_session *session, size_t *count);

/* Writes a side of file `file`, counted from 0: the selected side if `selected`, or the other side. Its kind of contents, its
 * mode and the number of its bytes go to `side`, and its bytes to `out`, clipped to `length`. If `side->length` is more than
 * `length`, call again with a larger buffer.
 *
 * The selected side is the file with the checked changes alone, and the other side the file with the unchecked changes alone;
 * docs/RULES.md says it in full, under "The split of a file". If the mode is GABRO_ABSENT, the file does not exist on that side.
 *
 * May also return GABRO_NO_MEMORY. */
GABRO_USE_CODE uint32_t gabro_side(const gabro_session *session, size_t file, bool selected, char *out, size_t length,
                              gabro_side_info *side);

/* Writes the bytes of a side of file `file`, counted from 0, to `out`, clipped to `length` bytes, and the whole length to
 * `written`: of the selected side if `selected`, or of the other side. This is the file to write of a file that
 * `gabro_state_texts` added. It has the lines of the side, and no two are joined: a line without a line end gets one where another
 * line follows. A character from U+E0080 to U+E00FF stands for one byte, in other files too. `gabro_side` has the mode of the
 * side, and the kind of its contents.
 *
 * May also return GABRO_NO_MEMORY. */
GABRO_USE_CODE uint32_t gabro_side_bytes(const gabro_session *session, size_t file, bool selected, char *out, size_t length,
                                     size_t *written);

/* Writes the mark of the line that `key` names to `mark`: GABRO_UNCHECKED to GABRO_CHECKED. If its line is GABRO_NO_INDEX, that of
 * the section; if its section is GABRO_NO_INDEX too, that of the file. The commit of the key does not matter. A context line has
 * no mark: GABRO_NO_ITEM. */
GABRO_USE_CODE uint32_t gabro_mark(const gabro_session *session, const gabro_key *key, uint32_t *mark);

/* Writes the marks of file `file`, counted from 0, to `out`, clipped to `length` bytes, and their number to `written`. Each
 * mark is a byte, 1 if it is checked and 0 if not. They have the order of the file: of a section of changed lines one for each
 * line, of a change of the mode or of binary contents one, and of context lines none.
 *
 * May also return GABRO_NO_MEMORY. */
GABRO_USE_CODE uint32_t gabro_marks(const gabro_session *session, size_t file, char *out, size_t length, size_t *written);

/* Writes the text of the line that `key` names, a changed line or a context line, to `out`, clipped to `length` bytes, and the
 * whole length in bytes to `written`. The commit of the key does not matter. */
GABRO_USE_CODE uint32_t gabro_line(const gabro_session *session, const gabro_key *key, char *out, size_t length, size_t *written);

/* Writes what the item is that `key` names, of which the commit does not matter: its kind to `kind`, and how many parts it has to
 * `parts`, of a file its sections, of a section its lines, of a line none. If the line of the key is GABRO_NO_INDEX, it names the
 * section; if its section is GABRO_NO_INDEX too, the file. The kind is that of the owner of a place that shows such an item:
 * GABRO_FILE; of a section GABRO_SECTION if it has changed lines, GABRO_CONTEXT, GABRO_MODE or GABRO_BINARY; of a line GABRO_ADDED,
 * GABRO_REMOVED or GABRO_CONTEXT. `gabro_files`, `gabro_path`, `gabro_line` and `gabro_mark` tell the rest of files, sections and lines, and
 * `gabro_side` the modes. */
GABRO_USE_CODE uint32_t gabro_item(const gabro_session *session, const gabro_key *key, uint32_t *kind, size_t *parts);

/* Writes the path of file `file`, counted from 0, to `out`, clipped to `length` bytes, and the whole length in bytes to `written`: if
 * `is_old` its path before a rename or a copy. Returns GABRO_NO_ITEM for an old path that the file has not, too. */
GABRO_USE_CODE uint32_t gabro_path(const gabro_session *session, size_t file, bool is_old, char *out, size_t length, size_t *written);

/* Writes the message of commit `commit`, counted from 0, to `out`, clipped to `length` bytes, and the whole length in bytes to
 * `written`. Returns GABRO_NO_ITEM for a commit without a message too. */
GABRO_USE_CODE uint32_t gabro_message(const gabro_session *session, size_t commit, char *out, size_t length, size_t *written);

/* ---- What accepting gives, on a screen ----
 *
 * A pager shows a side of a file line by line: the lines that accepting now would give it. Each line that is there by a mark begins with
 * a sign, `+ ` on the selected side and `- ` on the other one. The calls read the state as those of the answer do, and return the
 * same codes. They change nothing of the session: while a program hands what is typed to the pager, no key reaches the session.
 * gabro_run opens one at `p` and `P`.
 *
 * The keys: `j`, `k`, the arrows and the wheel go a line down or up, ctrl-d and ctrl-u half a page, ctrl-f, ctrl-b, page down and page up a
 * page, `g` and Home to the first line, `G` and End to the last page; `>` and `<` show the columns further right or left; `p` shows the
 * selected side, `P` the other one, and the one that is shown already closes the pager, as esc, `q`, `?` and ctrl-c do. */

/* Where a pager stands. It owns nothing: it may be copied, and dropped at any time. */
typedef struct gabro_pager {
    size_t file;   /* the file that it shows, counted from 0 */
    size_t top;    /* the line on the first row of the screen, counted from 0 */
    uint16_t left; /* how many columns of each line stand to the left of the screen */
    bool selected; /* it shows the selected side, and not the other one */
    bool is_open;  /* it has not been closed */
} gabro_pager;

/* Opens `pager` at the top of file `file`, counted from 0: on its selected side if `selected`, or on the other one. */
GABRO_USE_CODE uint32_t gabro_pager_open(const gabro_session *session, size_t file, bool selected, gabro_pager *pager);

/* Brings line `line` of section `section` of its file, both counted from 0, onto a terminal of `height` rows: `pager` then begins a third of
 * a page above it, or as near as the ends of the file are. A line that the side lacks counts as the next one that it has. */
GABRO_USE_CODE uint32_t gabro_pager_show(const gabro_session *session, gabro_pager *pager, size_t section, size_t line, uint16_t height);

/* Hands what a terminal of `width` columns and `height` rows sent, `length` bytes, to `pager`. The last row of the terminal is the
 * status row; of a larger terminal GABRO_MAX_COLUMNS and GABRO_MAX_ROWS count. Nothing more was sent for a while behind the bytes: so an
 * ESC at their end is a key of its own. Pasted text does nothing if both marks around it are among the bytes: hand in a paste as a whole,
 * or not at all. What comes after the key that closes the pager is dropped.
 *
 * May also return GABRO_NO_MEMORY. */
GABRO_USE_CODE uint32_t gabro_pager_type(const gabro_session *session, gabro_pager *pager, const char *bytes, size_t length,
                                         uint16_t width, uint16_t height);

/* Writes the bytes that make a terminal of `width` columns and `height` rows show `pager`, whatever it shows before, to `out`, clipped
 * to `length` bytes, and their number to `written`. Once the pager is closed, call `gabro_repaint`: the next gabro_paint then draws
 * every row of the session.
 *
 * May also return GABRO_NO_MEMORY. */
GABRO_USE_CODE uint32_t gabro_pager_paint(const gabro_session *session, const gabro_pager *pager, uint16_t width, uint16_t height,
                                          char *out, size_t length, size_t *written);

/* ---- From tree to tree ----
 *
 * These calls need no session, and have no state: any thread may call them at any time. */

/* What is wrong with a path. */
enum {
    GABRO_PATH_FINE = 0,      /* nothing */
    GABRO_PATH_EMPTY = 1,     /* a name is empty: the path is empty, absolute, or has `//` or a `/` at its end */
    GABRO_PATH_DOT = 2,       /* a name is `.` */
    GABRO_PATH_DOT_DOT = 3,   /* a name is `..` */
    GABRO_PATH_OF_GIT = 4,    /* a file system may take a name for `.git` */
    GABRO_PATH_OF_JJ = 5,     /* a file system may take a name for `.jj` */
    GABRO_PATH_WITH_NUL = 6,  /* a name has a NUL byte */
};

/* Decides which files of a choice are left out, so that no file lies in another one, and what becomes of each path. `rows` has
 * `length` bytes: a record for each path of two trees, an old one and a new one, in any order. A record is four bytes, the path
 * and a NUL. The four bytes are:
 *
 *   o or -           whether the old tree has the path: what is there now
 *   n or -           whether the new tree has it: what is there once everything is marked
 *   o, n, c, - or =  what the marks ask for: the old version, the new one, a chosen one, no file; or `=` for a path that is not
 *                    shown, so that what is there now stays
 *   + or a blank     `+` if the path is the other one of the renamed file to which the last shown path belongs
 *
 * Writes records to `out`, clipped to `room` bytes, and their whole length to `written`. Each is a letter, a blank, a path and a
 * NUL. For each shown path, in the order of paths (`/` before all other bytes), its letter is what it gets: o, n or c for a
 * version, - for no file. After these there are two for each file that is left out, which keeps what is there now: x with the
 * path that would come, and y with a path that stays, of which one would lie in the other. The files that are left out are the
 * least that have to be.
 *
 * If nothing is decided, there is one record, with the first of these that applies: # and a record that is none; 2 and a path
 * that is there twice; ! and a path that would come or is shown, and is refused by gabro_path_fault; / if a file of one tree lies in
 * another one; + and a path of a renamed file that is not at exactly one of its paths, now and by the marks.
 *
 * Returns GABRO_DONE or GABRO_NO_MEMORY. */
GABRO_USE_CODE uint32_t gabro_decide_rows(const char *rows, size_t length, char *out, size_t room, size_t *written);

/* Returns what is wrong with the first name of a path, which has `length` bytes, with which something is, or GABRO_PATH_FINE if it
 * names a file below the top folder on each file system. */
uint32_t gabro_path_fault(const char *path, size_t length);

/* How the contents of a changed file are shown. */
enum {
    GABRO_BY_LINES = 0,    /* by lines; a link beside a file that is shown so counts as no file */
    GABRO_BY_ITEMS = 1,    /* by items: the mode, and the contents, unless they come and go with the mode */
    GABRO_BY_ONE_ITEM = 2, /* by one item, if a new version comes whose contents come with its mode, and else as by items */
};

/* Whose contents a file has in a tree. */
enum {
    GABRO_OF_SIDE = 0, /* those of the side, as gabro_side_bytes writes them */
    GABRO_OF_OLD = 1,  /* those of the old version */
    GABRO_OF_NEW = 2,  /* those of the new version */
};

/* A changed file: the modes of its two versions, GABRO_ABSENT of one that does not exist, and how it is shown. */
typedef struct gabro_changed {
    size_t old_mode;
    size_t new_mode;
    uint32_t shown;  /* GABRO_BY_LINES to GABRO_BY_ONE_ITEM */
    bool is_renamed; /* the old version has another path; then both exist */
} gabro_changed;

/* What a state is to be given of a changed file. */
typedef struct gabro_shown {
    size_t old_mode;   /* the mode before the changes, for gabro_state_file or gabro_state_texts */
    size_t new_mode;   /* the mode after all of them, for gabro_state_mode or gabro_state_texts */
    bool has_mode;     /* whether they differ: then the mode is an item */
    bool has_contents; /* whether the contents are an item, for gabro_state_binary */
} gabro_shown;

/* What a tree has of a changed file. */
typedef struct gabro_in_tree {
    size_t mode;          /* at the file's path, or GABRO_ABSENT */
    size_t old_path_mode; /* at the path before a rename, or GABRO_ABSENT */
    uint32_t contents;    /* GABRO_OF_SIDE to GABRO_OF_NEW */
} gabro_in_tree;

/* Writes to `shown` what a state is to be given of a changed file. `is_other` says whether the contents of its versions differ.
 *
 * If it is shown by lines, the texts of both versions are given with these modes, and a version of mode GABRO_ABSENT has none. The mode
 * before the changes of a renamed file has no kind, as no file has it: so its new path is an item, a change of the mode. */
void gabro_tree_shown(const gabro_changed *changed, bool is_other, gabro_shown *shown);

/* Writes to `in_tree` what a tree has of a changed file, which a state was given as gabro_tree_shown says, by a side of it: the selected
 * side if `selected`. `side` is what gabro_side says of that side.
 *
 * If nothing is marked, the selected side is the old version and the other one the new version, and if everything is marked the
 * reverse. On the unselected side a file with lines stays. If one version is a link and the other one a file with lines, the link is
 * there where that file is not. A renamed file is at exactly one of its paths. */
void gabro_tree_side(const gabro_changed *changed, bool selected, const gabro_side_info *side, gabro_in_tree *in_tree);

/* ---- A version without changes of blanks ---- */

/* Writes the version `new` of a file without the changes from the version `old` that are of blanks alone to `out`, clipped to `room` bytes,
 * the number of its bytes to `written`, and how many lines are left out to `left_out`. A line that differs by blanks alone from the line of
 * `old` that it is compared with is as `old` has it. A blank is a tab, a vertical tab, a form feed, a carriage return or a space; the line end
 * is none. Bytes that are not UTF-8 come back.
 *
 * To show a file so, hand this version to gabro_state_texts in place of `new`: each line of a side is one of `old` or of this version then, so
 * no mark takes a change that is left out. To have such lines be as `new` has them, hand in `old` without its changes from `new`.
 *
 * Returns GABRO_DONE or GABRO_NO_MEMORY. */
GABRO_USE_CODE uint32_t gabro_without_blank_changes(const char *old, size_t old_length, const char *new_bytes, size_t new_length, char *out,
                                                size_t room, size_t *written, size_t *left_out);

/* ---- The merge of two changed files ----
 *
 * These calls need no session either, and have no state. Two files `ours` and `theirs` came from a file `base`, which may be empty.
 * Lines that all three have, that one side alone changed, or that both sides changed in the same way are taken without asking. Each
 * other part is a conflict of three versions: ours, the base's and theirs. Each conflict has at least one line between it and the next
 * one, and begins and ends where ours and theirs differ. Bytes that are not UTF-8 come back, as with `gabro_state_texts`; a caller who
 * takes no binary files looks for a NUL. */

/* Writes a record for each line of the merge of three files to `out`, clipped to `room` bytes, and the whole length of all records to
 * `written`. A record is a letter, the number of bytes of a text (eight bytes, the lowest one first), and the text, which is UTF-8. The
 * letter is
 *
 *   a blank   of a line that is taken without asking
 *   o         of a line of ours, in a conflict
 *   b         of a line of the base, in a conflict
 *   t         of a line of theirs, in a conflict
 *
 * Each conflict has all of ours, then all of the base, and then all of theirs. A version without lines has one record with the empty
 * text, which stands for it. To show the merge, add a file (gabro_state_file) and hand each text to gabro_state_line: that of a blank as a
 * context line; that of an `o` or a `t` as an added line that is not checked; and that of a `b` as a removed line that is checked. Begin
 * a section where the letter changes (gabro_state_section). Then no conflict has anything chosen, and a checkbox on a section takes a
 * whole version: that of the base by taking its mark away.
 *
 * Returns GABRO_DONE or GABRO_NO_MEMORY. */
GABRO_USE_CODE uint32_t gabro_merge_texts(const char *base, size_t base_length, const char *ours, size_t our_length,
                                      const char *theirs, size_t their_length, char *out, size_t room, size_t *written);

/* Writes the bytes of the merge of three files by `marks` to `out`, clipped to `room` bytes, and their number to `written`. There are
 * `count` marks, a byte for each record of a conflict, in order, as `gabro_marks` writes them: 1 if the item is checked, and 0 if not.
 * An item of ours or theirs is taken if it is checked, and one of the base if it is not. The merge has all lines that are taken, and
 * all that are taken without asking, in order. A line without a line end gets one where another line follows. At most all bytes of the
 * three files and three more are written.
 *
 * Returns GABRO_DONE, GABRO_NO_ITEM if there are more or fewer marks than items, or GABRO_NO_MEMORY. */
GABRO_USE_CODE uint32_t gabro_merged_bytes(const char *base, size_t base_length, const char *ours, size_t our_length,
                                       const char *theirs, size_t their_length, const char *marks, size_t count, char *out,
                                       size_t room, size_t *written);

/* Writes how many conflicts of the merge of three files are open by `marks`, as gabro_merged_bytes takes them, to `open`: those of which
 * no item is taken.
 *
 * Returns GABRO_DONE, GABRO_NO_ITEM if there are more or fewer marks than items, or GABRO_NO_MEMORY. */
GABRO_USE_CODE uint32_t gabro_open_conflicts(const char *base, size_t base_length, const char *ours, size_t our_length,
                                         const char *theirs, size_t their_length, const char *marks, size_t count,
                                         size_t *open);

/* Writes the bytes of the merge of three files by `marks`, as gabro_merged_bytes does, but with conflict markers for each conflict that is
 * open: `<<<<<<<` and ours, `|||||||` and the base's lines, `=======` and theirs, and `>>>>>>>`, with the labels behind the first, the
 * second and the last. A label without bytes, or with a line end, is left out. A marker has `marker_length` signs (git has 7), or one
 * more than any line of the file begins with, whichever is greater. If no conflict is open, the bytes are those of gabro_merged_bytes.
 *
 * Returns GABRO_DONE, GABRO_NO_ITEM if there are more or fewer marks than items, or GABRO_NO_MEMORY. */
GABRO_USE_CODE uint32_t gabro_marked_bytes(const char *base, size_t base_length, const char *ours, size_t our_length,
                                       const char *theirs, size_t their_length, const char *marks, size_t count,
                                       const char *base_label, size_t base_label_length, const char *our_label,
                                       size_t our_label_length, const char *their_label, size_t their_label_length,
                                       size_t marker_length, char *out, size_t room, size_t *written);

/* ---- Codes ---- */

/* Writes the sentence of a return code to `out`, clipped to `length` bytes. It is ASCII.
 *
 * Returns the whole length in bytes, or 0 for a code that no call returns. */
size_t gabro_words(uint32_t code, char *out, size_t length);

/* Returns the version of the library, as GABRO_VERSION is that of the header. */
uint32_t gabro_version(void);

/* ---- At a terminal ---- */

/* Shows a session that has begun on the terminal `terminal`, an open file, and hands in what the user types, until the session
 * waits no more: `gabro_end` returns how it ended. Sets raw mode, takes the second screen, the mouse and marks around pasted text,
 * follows new sizes, and stops at ctrl-z. Tab presses the word "view", and ctrl-l draws every row. `p` shows what accepting gives of the
 * selected item's file, and `P` what it leaves, as a pager does. `E` opens that file in an editor, if the program does (gabro_hooks). A
 * message is edited by the program VISUAL, EDITOR or vi, in a folder of its own in TMPDIR, or in /tmp if that names no folder by its whole
 * path; if that fails, the user hears why, and the message stays. The window's title is `title`, in ASCII without controls, or another one
 * if it is NULL. A terminal of more than GABRO_MAX_COLUMNS or GABRO_MAX_ROWS shows the screen at its top left.
 *
 * When it returns, the terminal and the handlers of signals are as before. Meanwhile it hears the signals SIGTSTP, SIGCONT,
 * SIGWINCH, SIGINT, SIGQUIT, SIGHUP and SIGTERM, and SIGXFSZ is ignored. Other signals of the program end no run, whatever their
 * handlers (also without SA_RESTART), and neither does an open file that never waits (O_NONBLOCK). One run at a time is in a process:
 * while one goes on, another call changes nothing, and returns -1 with EBUSY.
 *
 * This call is written in C, over the others (bindings/c/src/run.c): no proof covers it.
 *
 * Returns 0 if the session waits no more, or did not wait; the number of a signal that asked the process to end, which the caller
 * then raises; or -1 with errno set: EIO if the terminal is gone, ENOMEM if an allocation failed, EBUSY if another run goes on, or
 * the error of tcgetattr or pipe2. If it does not return 0, the session has not ended. */
GABRO_USE_CODE int gabro_run(gabro_session *session, int terminal, const char *title);

/* What a program does within a run, and what it says of its keys. Each function gets `context`, and is not called if it is NULL. It may make
 * any call of the session but `gabro_free` and `gabro_run`. */
typedef struct gabro_hooks {
    void *context;
    /* Something that was typed is handled, or a silence, and is not drawn yet. The session may have ended. */
    void (*changed)(void *context, gabro_session *session);
    /* The user has typed nothing more for about 50 milliseconds. */
    void (*rested)(void *context, gabro_session *session);
    /* The user pressed a key that means nothing to the session or to the run: `key` is its code, as `gabro_type_to_key` tells it. */
    void (*pressed)(void *context, gabro_session *session, uint32_t key);
    /* The lines of a page of keys, in UTF-8. A `?` that closes the help shows it, as a pager does. NULL: no page. */
    const char *keys;
    /* The user pressed `E`, to open file `file` in an editor at line `new_line`, which is line `old_line` of the old version (see
     * gabro_selected_line). The terminal is as before the run, and the keys of signals do nothing to this process. Then every row is drawn.
     * Returns NULL, or why no file was opened, which the user reads. NULL: `E` says that there is nothing to open. */
    const char *(*open)(void *context, gabro_session *session, size_t file, size_t old_line, size_t new_line);
} gabro_hooks;

/* Does what `gabro_run` does, with `hooks`, which may be NULL. */
GABRO_USE_CODE int gabro_run_with(gabro_session *session, int terminal, const char *title, const gabro_hooks *hooks);

/* ---- The rest ---- */

/* Closes the session and frees its memory. If it is closed, or `session` is null, this is a no-op. */
void gabro_free(gabro_session *session);

#ifdef __cplusplus
}
#endif

#endif
