/* The mode that a command works in: plain, or keyed by the file that --key names. */
#ifndef KEY_H
#define KEY_H
#include "keeper.h"

/* The plain mode, in which the host seals its own pages, those of keyed logs too. */
extern const keeper_mode plain;

/* Takes the key from the file of that name, from standard input for "-", and none for NULL: DONE, or REFUSED where it is not of 32 bytes. Fails, with words,
   where it cannot be read. */
int take_key(const char *path);

/* The mode of this run: that of the key, or plain where none was taken. */
const keeper_mode *mode_taken(void);

/* A digest in parts in that mode, with nothing in it. There is one at a time: its state has the key's words, and so stands where the key does. */
keeper_parts *parts_begun(void);

/* The key leaves memory: behind each command, and before that where much is written behind its last digest. The mode stays keyed, so that a digest which
   came all the same would be no plain one. */
void forget_key(void);

/* Fails, with words, where a path leads to the file that the key was taken from: no output is written over it. */
void demand_no_key(const char *path);

#endif
