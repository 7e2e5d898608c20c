/* Names that other programs keep for themselves. No proof covers this file. */
#define _GNU_SOURCE
#include "names.h"
#include "characters.h"

#include <string.h>
#include <strings.h>

/* What they keep for themselves, and the short names that NTFS gives these. */
static const char *const KEPT[] = {".git", ".jj", "git~", "jj~"};

/* The longest name that a file system has, in bytes, and the zero behind it. */
enum { LONGEST_NAME = 1024 };

/* Sets `folded` to a name without the characters that a file system may leave out. Returns false if it is too long. */
static bool leave_out(const char *name, char *folded, size_t room) {
    size_t made = 0, rest = strlen(name);
    while (rest > 0 && made + 4 < room) {
        uint32_t code = 0;
        size_t length = character_at(name, rest, &code);
        size_t count = length > 0 ? length : 1;
        if (length == 0 || !is_ignorable(code)) {
            memcpy(folded + made, name, count);
            made += count;
        }
        name += count;
        rest -= count;
    }
    folded[made] = 0;
    return rest == 0;
}

/* Returns whether nothing is at `end` but digits of a short name, blanks, dots, and a stream or a further folder of Windows. */
static bool is_at_end(const char *end, bool is_short) {
    size_t digits = is_short ? strspn(end, "0123456789") : 0;
    const char *behind = end + digits;
    behind += strspn(behind, ". ");
    return (!is_short || digits > 0) && (*behind == 0 || *behind == ':' || *behind == '\\');
}

/* Returns whether a part of a name, up to its end or a backslash, is one that is kept. */
static bool is_kept(const char *part) {
    for (size_t i = 0; i < sizeof KEPT / sizeof *KEPT; i++) {
        size_t length = strlen(KEPT[i]);
        if (!strncasecmp(part, KEPT[i], length) && is_at_end(part + length, KEPT[i][length - 1] == '~')) {
            return true;
        }
    }
    return false;
}

bool is_of_others(const char *name, bool *is_plain) {
    char folded[LONGEST_NAME];
    *is_plain = !strcmp(name, ".git") || !strcmp(name, ".jj");
    bool is_kept_one = !leave_out(name, folded, sizeof folded);
    for (const char *part = folded; part && !is_kept_one;) {
        is_kept_one = is_kept(part);
        part = strchr(part, '\\');
        part = part ? part + 1 : NULL;
    }
    return is_kept_one;
}
