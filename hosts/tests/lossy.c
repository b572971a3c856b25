/* A disk that loses what was not synced, for hosts/test.sh: linked around the host's calls that bring nodes, records and sizes to disk.
   LOSSY_DISK is a folder with a copy of each file, made before the host starts; a copy gets what is synced, when it is synced. Before the call of the
   number LOSSY_STEP the power fails: the program ends with 99. What had not been synced by then has reached the disk as LOSSY_LUCK says: 0 nothing of
   it, 1 the even pages, 2 the odd pages, 3 all, 4 the first 40 bytes of each page, 5 the first half of each page. So the copies are what a crash leaves. */
#include <fcntl.h>
#include <libgen.h>
#include <stdint.h>
#include <stdio.h>
#include <stdlib.h>
#include <string.h>
#include <sys/mman.h>
#include <sys/stat.h>
#include <unistd.h>

enum { PAGE = 4096, TORN = 40, POWER_FAILED = 99, FILES = 8 };

int __real_msync(void *from, size_t length, int flags);
ssize_t __real_pwrite(int file, const void *bytes, size_t count, off_t at);
int __real_fdatasync(int file);
int __real_fsync(int file);
void *__real_mmap(void *at, size_t length, int protection, int flags, int file, off_t from);
int __wrap_msync(void *from, size_t length, int flags);
ssize_t __wrap_pwrite(int file, const void *bytes, size_t count, off_t at);
int __wrap_fdatasync(int file);
int __wrap_fsync(int file);
void *__wrap_mmap(void *at, size_t length, int protection, int flags, int file, off_t from);

/* A file in use: its newest map, by the number of the open file. */
typedef struct {
    int file;
    uint8_t *map;
    size_t length;
} Used;
static Used used[FILES];
static int count;

static void stop(const char *why) {
    perror(why);
    exit(2);
}

static int setting(const char *name) { return getenv(name) ? atoi(getenv(name)) : -1; }

/* The copy of an open file. */
static int copy_of(int file) {
    char name[64], path[4096], copy[8192];
    snprintf(name, sizeof name, "/proc/self/fd/%d", file);
    ssize_t length = readlink(name, path, sizeof path - 1);
    if (length < 0) stop("lossy: cannot name the file");
    path[length] = 0;
    snprintf(copy, sizeof copy, "%s/%s", getenv("LOSSY_DISK"), basename(path));
    int disk = open(copy, O_WRONLY | O_CREAT, 0666);
    if (disk < 0) stop("lossy: cannot open the copy");
    return disk;
}

/* Bytes of a file that are on disk from now on. */
static void reaches_disk(const Used *of, size_t from, size_t length) {
    int disk = copy_of(of->file);
    if (__real_pwrite(disk, of->map + from, length, (off_t)from) != (ssize_t)length) stop("lossy: cannot write the copy");
    close(disk);
}

static void power_fails(void) {
    int luck = setting("LOSSY_LUCK");
    for (int i = 0; i < count; i++)
        for (size_t page = 0; page < used[i].length / PAGE; page++) {
            if (luck >= 4) reaches_disk(&used[i], page * PAGE, luck == 4 ? TORN : PAGE / 2);
            else if (luck >> (page % 2) & 1) reaches_disk(&used[i], page * PAGE, PAGE);
        }
    _exit(POWER_FAILED);
}

static void step(void) {
    static int steps;
    if (++steps == setting("LOSSY_STEP")) power_fails();
}

static Used *used_file(int file) {
    for (int i = 0; i < count; i++)
        if (used[i].file == file) return &used[i];
    return NULL;
}

void *__wrap_mmap(void *at, size_t length, int protection, int flags, int file, off_t from) {
    void *map = __real_mmap(at, length, protection, flags, file, from);
    if (file < 0 || map == MAP_FAILED || !(protection & PROT_WRITE)) return map;
    Used *of = used_file(file);
    if (!of && count == FILES) stop("lossy: too many files");
    if (!of) of = &used[count++];
    *of = (Used){file, map, length};
    return map;
}

int __wrap_msync(void *from, size_t length, int flags) {
    step();
    for (int i = 0; i < count; i++)
        if ((uint8_t *)from >= used[i].map && (uint8_t *)from < used[i].map + used[i].length)
            reaches_disk(&used[i], (size_t)((uint8_t *)from - used[i].map), length);
    return __real_msync(from, length, flags);
}

ssize_t __wrap_pwrite(int file, const void *bytes, size_t length, off_t at) {
    step();
    return __real_pwrite(file, bytes, length, at);
}

int __wrap_fdatasync(int file) {
    step();
    const Used *of = used_file(file);
    if (of) reaches_disk(of, 0, of->length);
    return __real_fdatasync(file);
}

/* A file that has grown is that long on disk too. */
int __wrap_fsync(int file) {
    struct stat about;
    const Used *of = used_file(file);
    if (!of) return __real_fsync(file);
    step();
    int disk = copy_of(file);
    if (fstat(file, &about) != 0 || ftruncate(disk, about.st_size) != 0) stop("lossy: cannot make the copy longer");
    close(disk);
    reaches_disk(of, 0, of->length);
    return __real_fsync(file);
}
