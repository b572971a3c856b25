/* A file that is mapped whole and grows: a log's nodes, the records beside it and their index. */
#ifndef MAPPED_H
#define MAPPED_H
#include <stddef.h>
#include <stdint.h>

typedef struct {
    const char *path;
    int file, writing;
    uint8_t *bytes; /* the whole file, NULL where it is not mapped */
    size_t length;  /* of the file */
} Mapped;

/* Maps the file as long as it is now, in place of an earlier map: 0, or -1 with errno; EINVAL for what is no file of that many bytes at least. */
int map_whole(Mapped *mapped, size_t least);

/* More room, at least so many bytes in all, in steps that grow with the file. The disk space is taken now: a full disk is an error here, and no
   signal in the map later. 0, or -1 with errno. */
int map_longer(Mapped *mapped, size_t least);

/* The bytes from one place to another are on disk when this returns, and leave the program's memory. 0, or -1 with errno. */
int map_sync(Mapped *mapped, size_t from, size_t to);

void map_close(Mapped *mapped);

#endif
