/* A file of any length, or standard input, read to its end a block at a time: what is needed of memory does not grow with it. */
#include <errno.h>
#include <fcntl.h>
#include <sys/stat.h>
#include <unistd.h>
#include "blocks.h"
#include "start.h"

/* From where it is read on, which for standard input may be behind its beginning. */
static uint64_t length_of(int file) {
    struct stat about;
    if (fstat(file, &about) != 0 || !S_ISREG(about.st_mode)) return 0;
    off_t at = lseek(file, 0, SEEK_CUR);
    return at < 0 || at > about.st_size ? 0 : (uint64_t)(about.st_size - at);
}

int blocks_open(Blocks *blocks, const char *path) {
    blocks->file = path ? open(path, O_RDONLY | O_CLOEXEC) : STDIN_FILENO;
    if (blocks->file < 0) return -1;
    blocks->length = length_of(blocks->file);
    blocks->count = 0;
    return 0;
}

ssize_t blocks_more(Blocks *blocks) {
    for (;;) {
        if (wait_for_input(blocks->file, -1) == STOP) return -1;
        ssize_t got = read(blocks->file, blocks->bytes + blocks->count, BLOCK - blocks->count);
        if (got < 0 && (errno == EINTR || errno == EAGAIN)) continue;
        if (got > 0) blocks->count += (size_t)got;
        return got;
    }
}

void blocks_close(Blocks *blocks) {
    if (blocks->file > STDIN_FILENO) close(blocks->file);
    blocks->file = -1;
}
