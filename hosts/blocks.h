/* A file of any length, or standard input, read to its end a block at a time: what is needed of memory does not grow with it. */
#ifndef BLOCKS_H
#define BLOCKS_H
#include <stddef.h>
#include <stdint.h>
#include <sys/types.h>

/* Enough that what a call costs by itself is nothing beside it, and little enough that it is still near the processor when it is hashed. */
enum { BLOCK = 1 << 16 };
typedef struct {
    int file;
    uint64_t length; /* how many bytes it has, from where it is read on; 0 where it is no file, and nobody knows */
    size_t count;    /* of the bytes that are in the block */
    uint8_t bytes[BLOCK];
} Blocks;

/* Opens the file of that name, standard input where it is NULL, with no byte in the block: 0, or -1 with errno. */
int blocks_open(Blocks *blocks, const char *path);

/* What one read brings, behind the bytes that are in the block, which is not full: how many, 0 at the end, or -1 with errno. It is -1 too where the
   program was asked to stop. */
ssize_t blocks_more(Blocks *blocks);

/* Also where it was not opened. */
void blocks_close(Blocks *blocks);

#endif
