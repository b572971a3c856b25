/* Records on standard input, each 4 bytes of length, big-endian, and then its bytes. */
#ifndef STREAM_H
#define STREAM_H
#include "input.h"

typedef struct {
    uint8_t bytes[1 << 16];
    size_t from, to;
    /* called before more is read, quiet where nothing has come for a while; not 0 where the stream is to end here */
    int (*pause)(void *of, int quiet);
    void *of;
    int error; /* errno of a read that failed */
    Input apart;
} Stream;

/* The next record, as a part of the stream's own bytes, good until the next call, and cut behind its first LONGEST_RECORD + 1 bytes; or how the stream has
   ended: behind a record, within one, because a signal or the caller asked for it, or by a read that failed. */
typedef enum { A_RECORD, ENDED, BROKEN, STOPPED, UNREADABLE } Next;
Next next_record(Stream *stream, const uint8_t **record, size_t *length);

#endif
