/* What the host says to a person: notes and failures on standard error, and the exit status. */
#include <stdarg.h>
#include <stdio.h>
#include <stdlib.h>
#include "answer.h"
#include "numbers.h"
#include "progress.h"
#include "say.h"

enum { LONGEST = 8192 };

static void write_note(const char *words) {
    progress_end();
    fprintf(stderr, "keeper: %s\n", words);
}

void note(const char *format, ...) {
    char words[LONGEST];
    va_list values;
    va_start(values, format);
    vsnprintf(words, sizeof words, format, values);
    va_end(values);
    write_note(words);
}

static void write_error(const char *format, va_list values) {
    char words[LONGEST];
    vsnprintf(words, sizeof words, format, values);
    write_note(words);
    put_text("error", words);
}

int failed(const char *format, ...) {
    va_list values;
    va_start(values, format);
    write_error(format, values);
    va_end(values);
    return FAILED;
}

void fail(const char *format, ...) {
    va_list values;
    put_close_all();
    va_start(values, format);
    write_error(format, values);
    va_end(values);
    exit(answer_end(FAILED));
}

void fail_with(int status, const char *format, ...) {
    va_list values;
    put_close_all();
    va_start(values, format);
    write_error(format, values);
    va_end(values);
    exit(answer_end(status));
}

int refused(const char *what, uint32_t number) {
    const Words *words = words_of(number);
    note("%s refused, number %u: %s.\n  %s", what, (unsigned)number, words->meaning, words->advice);
    put_refusal(number);
    return REFUSED;
}
