/* A new file: made under a name of its own, on disk before it gets the name that is wanted. It follows no link and replaces nothing. */
#ifndef FRESH_H
#define FRESH_H
#include <stddef.h>
#include <stdint.h>

/* The name of its own: the wanted one, and 16 digits that nobody can foresee. 0, or -1 with errno. */
enum { LONGEST_PATH = 4096 };
int draft_name(const char *path, char draft[LONGEST_PATH]);

/* Makes a file with these bytes, open for reading and writing, and locked: a crash leaves no file of that name or a whole one. Its number, or -1 with
   errno, EEXIST where the name is taken, be it by a link. */
int fresh_file(const char *path, const uint8_t *bytes, size_t count);

/* Whether the name still leads to this open file. */
int still_named(const char *path, int file);

/* Takes back a file that this program has made and nobody was told of. */
void fresh_remove(const char *path, int file);

#endif
