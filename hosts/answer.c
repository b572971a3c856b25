/* What a command answers on standard output: words for a person, or with --json one object. */
#include <errno.h>
#include <inttypes.h>
#include <stdarg.h>
#include <stdio.h>
#include <stdlib.h>
#include <string.h>
#include "answer.h"
#include "numbers.h"
#include "say.h"

static const char *command; /* where an object is asked for */
static char *object;        /* its bytes so far, or NULL */
static size_t object_length;
static FILE *out;
static int comma;
static char closing[8]; /* the brackets that are open, the innermost last */
static size_t opened;
static char holds[1024];
static int write_error; /* errno of the first line that could not be written, where that was noticed then */

int json_asked(void) { return command != NULL; }

static void remember_error(void) {
    if (ferror(stdout) && write_error == 0) write_error = errno;
}

void line(const char *format, ...) {
    va_list values;
    if (command) return;
    va_start(values, format);
    errno = 0;
    vprintf(format, values);
    va_end(values);
    putchar('\n');
    remember_error();
}

/* ---- text */

void hex_of(const uint8_t *bytes, size_t count, char *digits) {
    static const char digit[] = "0123456789abcdef";
    for (size_t i = 0; i < count; i++) {
        digits[2 * i] = digit[bytes[i] >> 4];
        digits[2 * i + 1] = digit[bytes[i] & 15];
    }
    digits[2 * count] = 0;
}

/* How many bytes the character at the start has; 0 where it is none that can be shown. */
static size_t character(const uint8_t *at, size_t left) {
    static const uint32_t least[] = {0, 0, 0x80, 0x800, 0x10000};
    if (at[0] < 0x80) return (at[0] >= 0x20 && at[0] != 0x7f) || at[0] == '\t' || at[0] == '\n' || at[0] == '\r';
    size_t count = at[0] >> 5 == 6 ? 2 : at[0] >> 4 == 14 ? 3 : at[0] >> 3 == 30 ? 4 : 0;
    if (count == 0 || count > left) return 0;
    uint32_t code = at[0] & (0x7fu >> count);
    for (size_t i = 1; i < count; i++) {
        if (at[i] >> 6 != 2) return 0;
        code = code << 6 | (at[i] & 0x3f);
    }
    int directs = (code >= 0x202a && code <= 0x202e) || (code >= 0x2066 && code <= 0x2069) || code == 0x200e || code == 0x200f;
    return code < least[count] || code > 0x10ffff || code >> 11 == 0x1b || code < 0xa0 || directs ? 0 : count;
}

int is_text(const uint8_t *bytes, size_t count) {
    for (size_t i = 0, part; i < count; i += part)
        if ((part = character(bytes + i, count - i)) == 0) return 0;
    return 1;
}

/* ---- the object */

static int begun(void) {
    if (!command) return 0;
    if (!out) {
        out = open_memstream(&object, &object_length);
        if (!out) fail_with(FAILED, "no memory for the answer");
        fprintf(out, "{\"command\": \"%s\"", command);
        comma = 1;
    }
    return 1;
}

/* Bytes that are no text stand as the characters of their numbers. */
static void put_string(const char *text, size_t length) {
    const uint8_t *at = (const uint8_t *)text;
    fputc('"', out);
    for (size_t i = 0, part; i < length; i += part) {
        part = character(at + i, length - i);
        if (part == 0 || at[i] < 0x20) fprintf(out, "\\u%04x", at[i]), part = 1;
        else if (at[i] == '"' || at[i] == '\\') fprintf(out, "\\%c", at[i]);
        else fwrite(at + i, 1, part, out);
    }
    fputc('"', out);
}

static int put_name(const char *name) {
    if (!begun()) return 0;
    if (comma) fputs(", ", out);
    if (name) fprintf(out, "\"%s\": ", name);
    comma = 1;
    return 1;
}

void put_number(const char *name, uint64_t value) {
    if (put_name(name)) fprintf(out, "%" PRIu64, value);
}

void put_flag(const char *name, int value) {
    if (put_name(name)) fputs(value ? "true" : "false", out);
}

void put_text(const char *name, const char *text) {
    if (put_name(name)) put_string(text, strlen(text));
}

void put_bytes(const char *name, const uint8_t *bytes, size_t count) {
    if (!put_name(name)) return;
    fputc('"', out);
    for (size_t i = 0; i < count; i++) fprintf(out, "%02x", bytes[i]);
    fputc('"', out);
}

void put_record(const uint8_t *record, size_t length) {
    put_number("record_length", length);
    put_bytes("record", record, length);
    if (is_text(record, length) && put_name("record_text")) put_string((const char *)record, length);
}

void put_refusal(uint32_t number) {
    put_number("number", number);
    put_text("meaning", words_of(number)->meaning);
    put_text("advice", words_of(number)->advice);
}

void put_open(const char *name, char bracket) {
    if (!put_name(name) || opened == sizeof closing) return;
    fputc(bracket, out);
    closing[opened++] = bracket == '[' ? ']' : '}';
    comma = 0;
}

void put_close(void) {
    if (opened == 0) return;
    fputc(closing[--opened], out);
    comma = 1;
}

void put_close_all(void) {
    while (opened > 0) put_close();
}

/* ---- out */

void answer_in_json(const char *name) { command = name; }

void answer_line(void) {
    if (!begun()) return;
    put_close_all();
    fclose(out);
    errno = 0;
    fwrite(object, 1, object_length, stdout);
    puts("}");
    remember_error();
    free(object);
    out = NULL;
}

void answer_holds(const char *format, ...) {
    va_list values;
    va_start(values, format);
    vsnprintf(holds, sizeof holds, format, values);
    va_end(values);
}

int answer_end(int status) {
    put_close_all();
    put_number("status", (uint64_t)status);
    answer_line();
    errno = write_error;
    if (fflush(stdout) == 0 && !ferror(stdout)) return status;
    note("cannot write to standard output: %s%s%s", errno ? strerror(errno) : "an earlier part was lost", holds[0] ? "; all the same " : "", holds);
    return FAILED;
}
