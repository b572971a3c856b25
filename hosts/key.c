/* The mode that a command works in: plain, or keyed by the file that --key names.
   A key is in one place alone, which stays out of swap space and of core dumps where the system lets it, until forget_key or the program's end. Nothing
   prints it, and no file gets it: a keyed log has a tag in its place (sizes.c). */
#include <errno.h>
#include <stdlib.h>
#include <string.h>
#include <sys/mman.h>
#include <sys/prctl.h>
#include <sys/stat.h>
#include "input.h"
#include "key.h"
#include "say.h"

enum { KEY = 32 };
const keeper_mode plain = {0};

/* The mode, the state of a digest in parts, which has the key's words, and the key as it comes in: one byte more than a key has, so that a longer
   one is noticed. */
static struct {
    keeper_mode mode;
    keeper_parts parts;
    uint8_t read[KEY + 1];
} held;
static const char *taken_from; /* NULL for standard input */

/* Where the system does not let it, the work goes on all the same. */
static void shield(void) {
    mlock(&held, sizeof held);
    prctl(PR_SET_DUMPABLE, 0, 0, 0, 0);
    atexit(forget_key);
}

int take_key(const char *path) {
    if (!path) return DONE;
    shield();
    taken_from = strcmp(path, "-") == 0 ? NULL : path;
    ssize_t length = try_bytes(taken_from, held.read, sizeof held.read);
    if (length < 0) fail("cannot read the key, %s: %s", path, strerror(errno));
    uint32_t number = keeper_mode_keyed(held.read, (size_t)length, &held.mode);
    explicit_bzero(held.read, sizeof held.read);
    return number == KEEPER_DONE ? DONE : refused("key", number);
}

const keeper_mode *mode_taken(void) { return &held.mode; }

keeper_parts *parts_begun(void) {
    keeper_parts_begin(&held.mode, &held.parts);
    return &held.parts;
}

/* What digests have left of it on the stack, below where it is forgotten. */
__attribute__((noinline)) static void wipe_stack(void) {
    uint8_t below[1 << 15];
    explicit_bzero(below, sizeof below);
}

void forget_key(void) {
    explicit_bzero(held.mode.key, sizeof held.mode.key);
    explicit_bzero(&held.parts, sizeof held.parts);
    explicit_bzero(held.read, sizeof held.read);
    wipe_stack();
}

void demand_no_key(const char *path) {
    struct stat key, other;
    if (!taken_from || stat(taken_from, &key) != 0 || stat(path, &other) != 0) return;
    if (key.st_dev == other.st_dev && key.st_ino == other.st_ino) fail("%s is the key, and is not written over", path);
}
