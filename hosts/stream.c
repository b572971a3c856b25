/* Records on standard input, each 4 bytes of length, big-endian, and then its bytes. */
#include <errno.h>
#include <string.h>
#include <unistd.h>
#include "start.h"
#include "stream.h"

/* So many milliseconds without a byte are a pause: long enough for a sender on the same machine to go on, too short to be noticed by one who waits. */
enum { QUIET = 5 };

/* More bytes: A_RECORD where there are some, else how the stream has ended. */
static Next refill(Stream *stream) {
    Wait wait = wait_for_input(STDIN_FILENO, QUIET);
    if (wait == STOP || stream->pause(stream->of, wait == NOT_YET) != 0) return STOPPED;
    for (;;) {
        if (wait_for_input(STDIN_FILENO, -1) == STOP) return STOPPED;
        ssize_t got = read(STDIN_FILENO, stream->bytes, sizeof stream->bytes);
        if (got < 0 && (errno == EINTR || errno == EAGAIN)) continue;
        stream->error = got < 0 ? errno : 0;
        stream->from = 0;
        stream->to = got < 0 ? 0 : (size_t)got;
        return got < 0 ? UNREADABLE : got == 0 ? ENDED : A_RECORD;
    }
}

/* The next bytes: A_RECORD where all came. A stream that ends behind the first of them is broken. */
static Next take(Stream *stream, uint8_t *bytes, size_t count, size_t taken) {
    for (size_t done = 0; done < count;) {
        Next more = stream->from == stream->to ? refill(stream) : A_RECORD;
        if (more != A_RECORD) return more == ENDED && taken + done > 0 ? BROKEN : more;
        size_t part = stream->to - stream->from;
        if (part > count - done) part = count - done;
        memcpy(bytes + done, stream->bytes + stream->from, part);
        stream->from += part;
        done += part;
    }
    return A_RECORD;
}

static size_t length_in(const uint8_t head[4]) {
    size_t stated = (size_t)head[0] << 24 | (size_t)head[1] << 16 | (size_t)head[2] << 8 | head[3];
    return stated > LONGEST_RECORD ? LONGEST_RECORD + 1 : stated;
}

/* A record that lies whole in what was read stays where it is; another is put together apart. */
Next next_record(Stream *stream, const uint8_t **record, size_t *length) {
    uint8_t head[4];
    const uint8_t *at = stream->bytes + stream->from;
    size_t there = stream->to - stream->from;
    if (there >= sizeof head && there - sizeof head >= length_in(at)) {
        *record = at + sizeof head;
        *length = length_in(at);
        stream->from += sizeof head + *length;
        return A_RECORD;
    }
    Next next = take(stream, head, sizeof head, 0);
    if (next != A_RECORD) return next;
    *record = stream->apart.bytes;
    *length = length_in(head);
    return take(stream, stream->apart.bytes, *length, sizeof head);
}
