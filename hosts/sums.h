/* Lists of digests as b3sum writes and reads them, a line for each file: 64 hexadecimal digits, two spaces, the name. */
#ifndef SUMS_H
#define SUMS_H
#include <stddef.h>
#include <stdint.h>
#include "blocks.h"

/* The longest name that the system opens; and the longest line, in which every byte of the name is two. */
enum { DIGEST = 32, LONGEST_NAME = 4095, LONGEST_LINE = 1 + 2 * DIGEST + 2 + 2 * LONGEST_NAME };

/* A name as a line has it. With a newline, a carriage return or a backslash in it the line begins with a backslash, and these are \n, \r and \\.
   On a terminal what is no text is shown as question marks. */
typedef struct {
    const char *mark; /* the backslash before the line, or nothing */
    char text[2 * LONGEST_NAME + 1];
} Shown;
void show_name(const char *name, int on_terminal, Shown *shown);

/* What a line says. */
typedef struct {
    uint8_t digest[DIGEST];
    char name[LONGEST_NAME + 1];
} Listed;

/* Whether a line, without its end, is one of a list. */
int is_listed(const uint8_t *line, size_t length, Listed *listed);

/* A list that is read line by line. Of a line that is longer than any with a name two bytes more are held, and the rest is passed over. */
typedef struct {
    Blocks blocks;
    size_t from;   /* where the block goes on */
    size_t length; /* of the line */
    uint8_t line[LONGEST_LINE + 2];
} Lines;

/* Opens a list, standard input where the path is NULL: 0, or -1 with errno. */
int lines_open(Lines *lines, const char *path);

/* The next line, without its newline, or the carriage return and newline, that ends it: 1, 0 behind the last, or -1 with errno. */
int lines_next(Lines *lines);

void lines_close(Lines *lines);

#endif
