/* Bytes that are handed out, to standard output or into a file: whole, or not at all. */
#ifndef HANDED_H
#define HANDED_H
#include <stddef.h>
#include <stdint.h>

/* To standard output, which is "-", where they are text or it is no terminal; or into the file of that name. A file that is there is replaced,
   through a link too, when all is on disk beside it, so that a crash or a full disk leaves it as it was. A pipe or a device takes them as they
   come. Fails, with words, where that cannot be. */
void hand_out(const char *path, const uint8_t *bytes, size_t count);

/* Into a file of that name, which must not be there. Where not all can be written there is none afterwards. Fails, with words. */
void hand_out_new(const char *path, const uint8_t *bytes, size_t count);

/* Fails, with words, where a path leads to a log, to what is kept beside one, or to the key: no output is written over what is needed later. The
   second fails too where it leads to what the bytes were read from: the file of that name, standard input for "-", which is what it is called. */
void demand_free(const char *path);
void demand_free_of(const char *path, const char *name, const char *what);

/* Fails, with words, where there is no folder of that name. */
void demand_folder(const char *path);

#endif
