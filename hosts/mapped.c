/* A file that is mapped whole and grows: a log's nodes, the records beside it and their index. */
#include <errno.h>
#include <fcntl.h>
#include <sys/mman.h>
#include <sys/stat.h>
#include <unistd.h>
#include "mapped.h"

static void unmap(Mapped *mapped) {
    if (mapped->bytes) munmap(mapped->bytes, mapped->length);
    mapped->bytes = NULL;
}

int map_whole(Mapped *mapped, size_t least) {
    struct stat about;
    if (fstat(mapped->file, &about) != 0) return -1;
    if (!S_ISREG(about.st_mode) || (uint64_t)about.st_size < least || (uint64_t)about.st_size > SIZE_MAX) {
        errno = EINVAL;
        return -1;
    }
    void *bytes = mmap(NULL, (size_t)about.st_size, mapped->writing ? PROT_READ | PROT_WRITE : PROT_READ, MAP_SHARED, mapped->file, 0);
    if (bytes == MAP_FAILED) return -1;
    unmap(mapped);
    mapped->bytes = bytes;
    mapped->length = (size_t)about.st_size;
    return 0;
}

/* Takes disk space behind the end; a call that a signal has ended is made again. */
static int take_space(int file, size_t from, size_t count) {
    int error;
    do error = posix_fallocate(file, (off_t)from, (off_t)count);
    while (error == EINTR);
    if (error == 0 && fsync(file) != 0) error = errno;
    errno = error;
    return error == 0 ? 0 : -1;
}

/* Where the disk has no room for a long step, a shorter one is tried, down to what is needed. */
int map_longer(Mapped *mapped, size_t least) {
    const size_t shortest = (size_t)1 << 16, longest = (size_t)1 << 26, page = 4096;
    if (least <= mapped->length) return 0;
    size_t needed = (least - mapped->length + page - 1) / page * page;
    size_t step = mapped->length < shortest ? shortest : mapped->length > longest ? longest : mapped->length / page * page;
    if (step < needed) step = needed;
    while (take_space(mapped->file, mapped->length, step) != 0) {
        if ((errno != ENOSPC && errno != EFBIG && errno != EDQUOT) || step == needed) return -1;
        step = step / 2 / page * page;
        if (step < needed) step = needed;
    }
    return map_whole(mapped, 1);
}

int map_sync(Mapped *mapped, size_t from, size_t to) {
    size_t page = (size_t)sysconf(_SC_PAGESIZE);
    from = from / page * page;
    if (msync(mapped->bytes + from, to - from, MS_SYNC) != 0) return -1;
    return madvise(mapped->bytes + from, to - from, MADV_DONTNEED) != 0 && errno != EINVAL ? -1 : 0;
}

void map_close(Mapped *mapped) {
    unmap(mapped);
    if (mapped->file >= 0) close(mapped->file);
    mapped->file = -1;
}
