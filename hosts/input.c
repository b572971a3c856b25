/* Records, letters and stored nodes as they come in: a whole file, the files of a folder. */
#include <dirent.h>
#include <errno.h>
#include <fcntl.h>
#include <stdio.h>
#include <stdlib.h>
#include <string.h>
#include <sys/stat.h>
#include <unistd.h>
#include "input.h"
#include "options.h"
#include "say.h"
#include "start.h"

/* ---- standard input */

int is_input(const char *name) { return strcmp(name, "-") == 0; }

const char *path_of(const char *name) { return is_input(name) ? NULL : name; }

const char *called(const char *name) { return is_input(name) ? "standard input" : name; }

int name_input(char *const *names, size_t count) {
    int inputs = 0;
    for (size_t i = 0; i < count; i++) inputs += is_input(names[i]);
    if (inputs > 1) wrong_use("- is standard input, which is read once, and it is named %d times", inputs);
    return inputs > 0;
}

void take_standard_input(void) {
    static int taken;
    if (taken++ > 0) wrong_use("standard input cannot be the key and something else too: name a file for one of them");
}

/* ---- whole files */

static _Noreturn void fail_stopped(void) { fail("%s came before all was read: nothing was done", stop_asked()); }

static ssize_t read_whole(int file, uint8_t *bytes, size_t most) {
    for (size_t done = 0;;) {
        if (done == most) return (ssize_t)done;
        if (wait_for_input(file, -1) == STOP) fail_stopped();
        ssize_t got = read(file, bytes + done, most - done);
        if (got < 0 && (errno == EINTR || errno == EAGAIN)) continue;
        if (got < 0) return -1;
        if (got == 0) return (ssize_t)done;
        done += (size_t)got;
    }
}

ssize_t try_bytes(const char *path, uint8_t *bytes, size_t most) {
    if (!path) take_standard_input();
    int file = path ? open(path, O_RDONLY | O_CLOEXEC) : STDIN_FILENO;
    if (file < 0 && errno == EINTR && stop_asked()) fail_stopped();
    if (file < 0) return -1;
    ssize_t length = read_whole(file, bytes, most);
    int error = errno;
    if (path) close(file);
    errno = error;
    return length;
}

int try_input(Input *input, const char *path, size_t most) {
    ssize_t length = try_bytes(path, input->bytes, most);
    input->length = length < 0 ? 0 : (size_t)length;
    return length < 0 ? -1 : 0;
}

const char *why_unread(const char *path) { return !path && errno == EBADF ? "it is closed" : strerror(errno); }

void fail_unread(const char *path) { fail("cannot read %s: %s", path ? path : "standard input", why_unread(path)); }

void read_input(Input *input, const char *path, size_t most) {
    if (try_input(input, path, most) != 0) fail_unread(path);
}

/* A log, its records and its index begin with one name. */
void demand_no_log(const char *path) {
    static const char name[] = "cinchcleat ";
    uint8_t start[sizeof name - 1];
    struct stat about;
    if (stat(path, &about) != 0 || !S_ISREG(about.st_mode) || try_bytes(path, start, sizeof start) != (ssize_t)sizeof start) return;
    if (memcmp(start, name, sizeof start) == 0) fail("%s is a log, or belongs to one, and is not written over", path);
}

/* ---- a folder */

static int visible(const struct dirent *entry) { return entry->d_name[0] != '.'; }

static int by_name(const struct dirent **a, const struct dirent **b) { return strcmp((*a)->d_name, (*b)->d_name); }

char *path_in(const char *folder, const char *name) {
    size_t room = strlen(folder) + strlen(name) + 2;
    char *path = malloc(room);
    if (!path) fail("no memory for the names in %s", folder);
    snprintf(path, room, "%s/%s", folder, name);
    return path;
}

/* Takes the path in where a file is there. */
static void add_file(Files *files, char *path) {
    struct stat about;
    if (stat(path, &about) != 0) fail("cannot read %s: %s", path, strerror(errno));
    if (S_ISREG(about.st_mode)) {
        files->paths[files->count++] = path;
        return;
    }
    note("%s is not a file, and is passed over", path);
    free(path);
}

Files folder_files(const char *folder) {
    struct dirent **entries;
    int found = scandir(folder, &entries, visible, by_name);
    if (found < 0) fail("cannot read the folder %s: %s", folder, strerror(errno));
    Files files = {.paths = calloc((size_t)found + 1, sizeof *files.paths)};
    if (!files.paths) fail("no memory for the names in %s", folder);
    for (int i = 0; i < found; i++) {
        add_file(&files, path_in(folder, entries[i]->d_name));
        free(entries[i]);
    }
    free(entries);
    return files;
}

void free_files(Files *files) {
    for (size_t i = 0; i < files->count; i++) free(files->paths[i]);
    free(files->paths);
}
