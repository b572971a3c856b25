/* The words on the command line: options, and what is left. */
#include <errno.h>
#include <stdarg.h>
#include <stdio.h>
#include <stdlib.h>
#include <string.h>
#include "answer.h"
#include "options.h"
#include "say.h"

void wrong_use(const char *format, ...) {
    char words[512];
    va_list values;
    va_start(values, format);
    vsnprintf(words, sizeof words, format, values);
    va_end(values);
    fail("wrong use: %s. keeper help says what can be asked for", words);
}

/* An option's place in what is asked for: a flag, or the word behind it. */
typedef struct {
    const char *name;
    size_t flag, value;
} Option;

#define FLAG(NAME, FIELD) {NAME, offsetof(Asked, FIELD), 0}
#define VALUE(NAME, FIELD) {NAME, 0, offsetof(Asked, FIELD)}
static const Option options[] = {
    FLAG("--json", json), FLAG("--help", help), FLAG("-h", help), FLAG("--bytes", bytes), FLAG("--stream", stream),
    FLAG("--acknowledge", acknowledge), FLAG("--keep-records", keep_records), FLAG("--show", show), FLAG("--records", records), FLAG("--quiet", quiet),
    FLAG("--check", check), FLAG("--leaf", leaf),
    VALUE("--folder", folder), VALUE("--size", size), VALUE("--record", record), VALUE("--records-to", records_to), VALUE("--page", page),
    VALUE("--wait", wait), VALUE("--key", key), VALUE("--inner", inner), VALUE("--to", to),
};

static const Option *option_named(const char *word, size_t length) {
    for (size_t i = 0; i < sizeof options / sizeof *options; i++)
        if (strlen(options[i].name) == length && strncmp(options[i].name, word, length) == 0) return &options[i];
    return NULL;
}

/* Whether a list of names, with spaces between, has this one. */
static int is_taken(const char *takes, const char *name) {
    size_t length = strlen(name);
    for (const char *at = takes; (at = strstr(at, name)); at += length)
        if ((at == takes || at[-1] == ' ') && (at[length] == 0 || at[length] == ' ')) return 1;
    return 0;
}

/* One option, with the word behind it or behind its "=": how many words it has. */
static int take_option(Asked *asked, const char *takes, int left, char **words) {
    size_t length = strcspn(words[0], "=");
    const Option *option = option_named(words[0], length);
    int general = option && (option->flag == offsetof(Asked, json) || option->flag == offsetof(Asked, help));
    if (!option || (!general && !is_taken(takes, option->name))) wrong_use("%s takes no %s", asked->command, words[0]);
    if (option->flag) {
        if (words[0][length] != 0) wrong_use("%s takes no value", option->name);
        if (option->flag == offsetof(Asked, records) && !asked->records) asked->before_records = asked->count;
        *(int *)(void *)((char *)asked + option->flag) = 1;
        return 1;
    }
    const char **value = (const char **)(void *)((char *)asked + option->value);
    if (words[0][length] == 0 && left < 2) wrong_use("a word is missing behind %s", option->name);
    if (*value) wrong_use("%s is given twice", option->name);
    *value = words[0][length] ? words[0] + length + 1 : words[1];
    return words[0][length] ? 1 : 2;
}

/* An object is asked for from the first error on, wherever the word stands. */
static void look_for_json(const Asked *asked, int count, char **words) {
    for (int i = 0; i < count && strcmp(words[i], "--") != 0; i++)
        if (strcmp(words[i], "--json") == 0) answer_in_json(asked->command);
}

void take_options(Asked *asked, const char *takes, int count, char **words) {
    int only_words = 0;
    look_for_json(asked, count, words);
    asked->words = words;
    for (int i = 0; i < count;) {
        if (!only_words && strcmp(words[i], "--") == 0) only_words = 1, i++;
        else if (!only_words && words[i][0] == '-' && words[i][1] != 0) i += take_option(asked, takes, count - i, words + i);
        else asked->words[asked->count++] = words[i++];
    }
}

void demand_words(const Asked *asked, int least, int most) {
    if (asked->count < least) wrong_use("%s needs %d words, and there are %d", asked->command, least, asked->count);
    if (asked->count > most) wrong_use("%s takes at most %d words, and there are %d", asked->command, most, asked->count);
}

uint64_t number_in(const char *word, const char *what) {
    char *end;
    errno = 0;
    uint64_t number = strtoull(word, &end, 10);
    if (word[0] < '0' || word[0] > '9' || *end != 0 || errno != 0) fail("%s is not a %s: a decimal number below 2^64 is wanted", word, what);
    return number;
}

double seconds_in(const char *word) {
    char *end;
    if (!word) return 0;
    double seconds = strtod(word, &end);
    if (strspn(word, "0123456789.") != strlen(word) || *end != 0 || end == word) fail("%s is no number of seconds", word);
    return seconds;
}

size_t bytes_in(const char *word, const char *what, uint8_t bytes[ROOT + 1]) {
    size_t digits = strlen(word), count = digits / 2 > ROOT ? ROOT + 1 : digits / 2;
    if (digits % 2 != 0 || strspn(word, "0123456789abcdefABCDEF") != digits) fail("%s is not a %s: hexadecimal digits are wanted", word, what);
    for (size_t i = 0; i < count; i++) {
        char two[3] = {word[2 * i], word[2 * i + 1], 0};
        bytes[i] = (uint8_t)strtoul(two, NULL, 16);
    }
    return count;
}
