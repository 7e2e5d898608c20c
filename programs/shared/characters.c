/* Characters of UTF-8, and those of them that nobody sees. No proof covers this file. */
#include "characters.h"

/* Code points from `first` to `last`. */
typedef struct range {
    uint32_t first, last;
} range;

/* Controls, blanks other than the space, ends of lines and paragraphs, marks of a format, tags, and what each font has for its own use.
 * Python has the same list: what str.isprintable does not take, but for code points that Unicode has not assigned. The programs in Python
 * go by that (words.py), and a try compares both. */
static const range UNSEEN[] = {
    {0, 0x1f}, {0x7f, 0xa0}, {0xad, 0xad}, {0x600, 0x605}, {0x61c, 0x61c}, {0x6dd, 0x6dd}, {0x70f, 0x70f}, {0x890, 0x891}, {0x8e2, 0x8e2},
    {0x1680, 0x1680}, {0x180e, 0x180e}, {0x2000, 0x200f}, {0x2028, 0x202f}, {0x205f, 0x206f}, {0x3000, 0x3000}, {0xe000, 0xf8ff},
    {0xfeff, 0xfeff}, {0xfff0, 0xfffb}, {0x110bd, 0x110bd}, {0x110cd, 0x110cd}, {0x13430, 0x1343f}, {0x1bca0, 0x1bca3}, {0x1d173, 0x1d17a},
    {0xe0000, 0xe00ff}, {0xe01f0, 0xe0fff}, {0xf0000, 0x10ffff},
};

/* What a file system that folds names may leave out: marks of a format, and what else Unicode lets a program ignore. */
static const range IGNORED[] = {
    {0x7f, 0xa0}, {0xad, 0xad}, {0x34f, 0x34f}, {0x61c, 0x61c}, {0x115f, 0x1160}, {0x17b4, 0x17b5}, {0x180b, 0x180f}, {0x200b, 0x200f},
    {0x2028, 0x202e}, {0x2060, 0x206f}, {0x3164, 0x3164}, {0xfe00, 0xfe0f}, {0xfeff, 0xfeff}, {0xffa0, 0xffa0}, {0xfff0, 0xfffb},
    {0x1bca0, 0x1bca3}, {0x1d173, 0x1d17a}, {0xe0000, 0xe0fff},
};

static bool is_in(uint32_t code, const range *ranges, size_t count) {
    for (size_t i = 0; i < count; i++) {
        if (ranges[i].first <= code && code <= ranges[i].last) {
            return true;
        }
    }
    return false;
}

bool is_unseen(uint32_t code) { return is_in(code, UNSEEN, sizeof UNSEEN / sizeof *UNSEEN); }

bool is_ignorable(uint32_t code) { return is_in(code, IGNORED, sizeof IGNORED / sizeof *IGNORED); }

size_t character_at(const char *bytes, size_t length, uint32_t *code) {
    static const uint32_t least[] = {0, 0, 0x80, 0x800, 0x10000};
    unsigned char first = length > 0 ? (unsigned char)*bytes : 0xff;
    size_t count = first < 0x80 ? 1 : first < 0xc2 ? 0 : first < 0xe0 ? 2 : first < 0xf0 ? 3 : first < 0xf5 ? 4 : 0;
    if (count == 0 || count > length) {
        return 0;
    }
    *code = count == 1 ? first : first & (0x7fu >> count);
    for (size_t i = 1; i < count; i++) {
        if (((unsigned char)bytes[i] & 0xc0) != 0x80) {
            return 0;
        }
        *code = *code << 6 | ((unsigned char)bytes[i] & 0x3f);
    }
    bool is_surrogate = 0xd800 <= *code && *code <= 0xdfff;
    return *code < least[count] || *code > 0x10ffff || is_surrogate ? 0 : count;
}
