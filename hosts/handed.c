/* Bytes that are handed out, to standard output or into a file: whole, or not at all. */
#include <errno.h>
#include <fcntl.h>
#include <stdio.h>
#include <stdlib.h>
#include <string.h>
#include <sys/stat.h>
#include <unistd.h>
#include "answer.h"
#include "fresh.h"
#include "handed.h"
#include "input.h"
#include "key.h"
#include "say.h"

static int write_all(int file, const uint8_t *bytes, size_t count) {
    for (size_t done = 0; done < count;) {
        ssize_t part = write(file, bytes + done, count - done);
        if (part < 0 && errno != EINTR) return -1;
        if (part > 0) done += (size_t)part;
    }
    return 0;
}

/* Closes an open file: 0 where all went well before and at the end, else -1 with the first errno. */
static int end_file(int file, int lost) {
    int error = errno;
    if (file >= 0 && close(file) != 0 && !lost) return -1;
    errno = error;
    return lost ? -1 : 0;
}

/* A pipe or a device. */
static int write_through(const char *path, const uint8_t *bytes, size_t count) {
    int file = open(path, O_WRONLY | O_CLOEXEC);
    return end_file(file, file < 0 || write_all(file, bytes, count) != 0);
}

/* Another file, of a name of its own, takes the place of what has the name, when it is on disk. It has the mode of the file that was there. */
static int put_in_place(const char *place, const struct stat *there, const uint8_t *bytes, size_t count) {
    char draft[LONGEST_PATH];
    if (draft_name(place, draft) != 0) return -1;
    int file = open(draft, O_WRONLY | O_CREAT | O_EXCL | O_NOFOLLOW | O_CLOEXEC, there ? there->st_mode & 0777 : 0666);
    if (file < 0) return -1;
    if (there) fchmod(file, there->st_mode & 07777);
    int lost = write_all(file, bytes, count) != 0 || fsync(file) != 0;
    if (end_file(file, lost) == 0 && rename(draft, place) == 0) return 0;
    int error = errno;
    unlink(draft);
    errno = error;
    return -1;
}

/* The file that a name leads to, through links. What may not be written is not replaced either. */
static int replace(const char *path, const struct stat *there, const uint8_t *bytes, size_t count) {
    char *place = realpath(path, NULL);
    int lost = !place || access(place, W_OK) != 0 || put_in_place(place, there, bytes, count) != 0, error = errno;
    free(place);
    errno = error;
    return lost ? -1 : 0;
}

/* A link to what is not there is left alone. */
static int write_file(const char *path, const uint8_t *bytes, size_t count) {
    struct stat there, link;
    if (stat(path, &there) == 0) return S_ISREG(there.st_mode) ? replace(path, &there, bytes, count) : write_through(path, bytes, count);
    if (errno != ENOENT || path[0] == 0) return -1;
    if (lstat(path, &link) != 0) return put_in_place(path, NULL, bytes, count);
    errno = EEXIST;
    return -1;
}

void hand_out(const char *path, const uint8_t *bytes, size_t count) {
    int to_output = strcmp(path, "-") == 0;
    if (to_output && isatty(STDOUT_FILENO) && !is_text(bytes, count)) fail("the record is no text: send it to a file, and not to a terminal");
    fflush(stdout);
    int lost = to_output ? write_all(STDOUT_FILENO, bytes, count) : write_file(path, bytes, count);
    if (lost) fail("cannot write %s: %s", to_output ? "to standard output" : path, strerror(errno));
}

void hand_out_new(const char *path, const uint8_t *bytes, size_t count) {
    int file = open(path, O_WRONLY | O_CREAT | O_EXCL | O_NOFOLLOW | O_CLOEXEC, 0666);
    int lost = file < 0 || write_all(file, bytes, count) != 0, error = errno;
    if (file >= 0 && lost) fresh_remove(path, file);
    errno = error;
    if (end_file(file, lost) != 0) fail("cannot write %s: %s", path, strerror(errno));
}

/* ---- what is not written over, and where */

void demand_free(const char *path) {
    demand_no_log(path);
    demand_no_key(path);
}

void demand_free_of(const char *path, const char *name, const char *what) {
    struct stat own, other;
    if (is_input(path)) return;
    demand_free(path);
    if (stat(path, &other) != 0 || !S_ISREG(other.st_mode)) return;
    if ((is_input(name) ? fstat(STDIN_FILENO, &own) : stat(name, &own)) != 0) return;
    if (own.st_dev == other.st_dev && own.st_ino == other.st_ino) fail("%s is %s itself, and is not written over", path, what);
}

void demand_folder(const char *path) {
    struct stat about;
    if (stat(path, &about) != 0) fail("cannot write into %s: %s", path, strerror(errno));
    if (!S_ISDIR(about.st_mode)) fail("cannot write into %s: it is no folder", path);
}
