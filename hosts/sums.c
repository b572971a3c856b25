/* Lists of digests as b3sum writes and reads them, a line for each file: 64 hexadecimal digits, two spaces, the name. */
#include <string.h>
#include "answer.h"
#include "sums.h"

/* ---- names */

/* The bytes that a name does not have as they are, and the letter that stands for each behind a backslash. */
static const char escaped[] = "\n\r\\", letters[] = "nr\\";

void show_name(const char *name, int on_terminal, Shown *shown) {
    int as_text = !on_terminal || is_text((const uint8_t *)name, strlen(name));
    size_t length = 0;
    shown->mark = "";
    for (; *name && length + 2 < sizeof shown->text; name++) {
        const char *found = strchr(escaped, *name);
        int is_shown = as_text || (*name >= ' ' && *name <= '~');
        if (found) shown->mark = "\\", shown->text[length++] = '\\', shown->text[length++] = letters[found - escaped];
        else shown->text[length++] = is_shown ? *name : '?';
    }
    shown->text[length] = 0;
}

/* The byte that a letter stands for behind a backslash; 0 where it stands for none. */
static char byte_of(uint8_t letter) {
    const char *found = letter ? strchr(letters, letter) : NULL;
    return found ? escaped[found - letters] : 0;
}

/* ---- lines */

static int digit_of(uint8_t byte) {
    if (byte >= '0' && byte <= '9') return byte - '0';
    if (byte >= 'a' && byte <= 'f') return byte - 'a' + 10;
    return byte >= 'A' && byte <= 'F' ? byte - 'A' + 10 : -1;
}

static int take_digest(const uint8_t *digits, uint8_t digest[DIGEST]) {
    for (size_t i = 0; i < DIGEST; i++) {
        int high = digit_of(digits[2 * i]), low = digit_of(digits[2 * i + 1]);
        if (high < 0 || low < 0) return 0;
        digest[i] = (uint8_t)(high << 4 | low);
    }
    return 1;
}

/* A name has no byte that is zero. */
static int take_name(const uint8_t *text, size_t length, int has_mark, char name[LONGEST_NAME + 1]) {
    size_t count = 0;
    for (size_t i = 0; i < length; i++) {
        int is_pair = has_mark && text[i] == '\\';
        if (is_pair && ++i == length) return 0;
        char byte = is_pair ? byte_of(text[i]) : (char)text[i];
        if (byte == 0 || count == LONGEST_NAME) return 0;
        name[count++] = byte;
    }
    name[count] = 0;
    return 1;
}

int is_listed(const uint8_t *line, size_t length, Listed *listed) {
    enum { NAME = 2 * DIGEST + 2 };
    int has_mark = length > 0 && line[0] == '\\';
    line += has_mark;
    length -= (size_t)has_mark;
    if (length <= NAME || !take_digest(line, listed->digest)) return 0;
    return memcmp(line + 2 * DIGEST, "  ", 2) == 0 && take_name(line + NAME, length - NAME, has_mark, listed->name);
}

/* ---- a list */

int lines_open(Lines *lines, const char *path) {
    lines->from = 0;
    return blocks_open(&lines->blocks, path);
}

/* The next byte: 1, 0 at the end, or -1 with errno. */
static int next_byte(Lines *lines, uint8_t *byte) {
    if (lines->from == lines->blocks.count) {
        lines->from = lines->blocks.count = 0;
        ssize_t got = blocks_more(&lines->blocks);
        if (got <= 0) return got < 0 ? -1 : 0;
    }
    *byte = lines->blocks.bytes[lines->from++];
    return 1;
}

int lines_next(Lines *lines) {
    uint8_t byte;
    int got, some = 0;
    lines->length = 0;
    while ((got = next_byte(lines, &byte)) > 0 && byte != '\n') {
        if (lines->length < sizeof lines->line) lines->line[lines->length++] = byte;
        some = 1;
    }
    if (lines->length > 0 && lines->line[lines->length - 1] == '\r') lines->length--;
    return got != 0 ? got : some;
}

void lines_close(Lines *lines) { blocks_close(&lines->blocks); }
