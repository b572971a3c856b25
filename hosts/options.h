/* The words on the command line: options, and what is left. */
#ifndef OPTIONS_H
#define OPTIONS_H
#include <stdint.h>
#include <stddef.h>

/* What was asked for. An option that was not given is 0 or NULL. */
typedef struct {
    const char *command;
    int json, help, bytes, stream, acknowledge, keep_records, show, records, quiet, check, leaf;
    const char *folder, *size, *record, *records_to, *to, *page, *wait, *key, *inner;
    char **words; /* what is no option */
    int count;
    int before_records; /* how many of them stand before --records */
} Asked;

/* The options that a command takes, by name: "--stream --wait". */
void take_options(Asked *asked, const char *takes, int count, char **words);

/* So many words are left, or from one number to another; else it is wrong use. */
void demand_words(const Asked *asked, int least, int most);
_Noreturn void wrong_use(const char *format, ...) __attribute__((format(printf, 1, 2)));

uint64_t number_in(const char *word, const char *what);
double seconds_in(const char *word);

/* Hexadecimal digits as bytes, one more than a root has at the most; how many. */
enum { ROOT = 32 };
size_t bytes_in(const char *word, const char *what, uint8_t bytes[ROOT + 1]);

#endif
