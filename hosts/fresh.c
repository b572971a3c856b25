/* A new file: made under a name of its own, on disk before it gets the name that is wanted. It follows no link and replaces nothing. */
#define _GNU_SOURCE
#include <errno.h>
#include <fcntl.h>
#include <inttypes.h>
#include <libgen.h>
#include <stdio.h>
#include <string.h>
#include <sys/file.h>
#include <sys/random.h>
#include <sys/stat.h>
#include <unistd.h>
#include "fresh.h"

int draft_name(const char *path, char draft[LONGEST_PATH]) {
    uint64_t chance;
    if (getrandom(&chance, sizeof chance, 0) != sizeof chance) return -1;
    if (snprintf(draft, LONGEST_PATH, "%s.%016" PRIx64 ".new", path, chance) < LONGEST_PATH) return 0;
    errno = ENAMETOOLONG;
    return -1;
}

static int sync_folder(const char *path) {
    char copy[LONGEST_PATH];
    snprintf(copy, sizeof copy, "%s", path);
    int folder = open(dirname(copy), O_RDONLY | O_DIRECTORY | O_CLOEXEC);
    if (folder < 0) return -1;
    int status = fsync(folder);
    close(folder);
    return status;
}

/* The wanted name, which must not be taken. Where the file system cannot rename so, by a second name and without the first. */
static int put_in_place(const char *draft, const char *path) {
    if (renameat2(AT_FDCWD, draft, AT_FDCWD, path, RENAME_NOREPLACE) != 0) {
        if (errno != EINVAL && errno != ENOSYS) return -1;
        if (link(draft, path) != 0 || unlink(draft) != 0) return -1;
    }
    return sync_folder(path);
}

int fresh_file(const char *path, const uint8_t *bytes, size_t count) {
    char draft[LONGEST_PATH];
    if (draft_name(path, draft) != 0) return -1;
    int file = open(draft, O_RDWR | O_CREAT | O_EXCL | O_NOFOLLOW | O_CLOEXEC, 0666);
    if (file < 0) return -1;
    errno = ENOSPC;
    if (flock(file, LOCK_EX | LOCK_NB) == 0 && write(file, bytes, count) == (ssize_t)count && fsync(file) == 0 && put_in_place(draft, path) == 0)
        return file;
    int error = errno;
    unlink(draft);
    fresh_remove(path, file);
    close(file);
    errno = error;
    return -1;
}

int still_named(const char *path, int file) {
    struct stat name, own;
    return stat(path, &name) == 0 && fstat(file, &own) == 0 && name.st_dev == own.st_dev && name.st_ino == own.st_ino;
}

void fresh_remove(const char *path, int file) {
    if (still_named(path, file) && unlink(path) == 0) sync_folder(path);
}
