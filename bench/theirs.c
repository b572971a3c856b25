/* BLAKE3's C, with KEYED its keyed hash: one digest of bytes at once, and one of bytes in parts. The scripts compile this file and BLAKE3's own once
   for each compiler, and once with SSE2; SIDE is gcc, clang or sse2, and every name begins with it. */
#include "blake3.h"
#include "mode.h"

#define JOINED(side, name) side##_##name
#define NAMED(side, name) JOINED(side, name)
#define NAME(name) NAMED(SIDE, name)

void NAME(digest)(const uint8_t *bytes, size_t length, uint8_t out[32]);
void NAME(begin)(void);
void NAME(add)(const uint8_t *part, size_t length);
void NAME(end)(uint8_t out[32]);

static void begin(blake3_hasher *hasher) {
#ifdef KEYED
    static const uint8_t key[32] = KEY_BYTES;
    blake3_hasher_init_keyed(hasher, key);
#else
    blake3_hasher_init(hasher);
#endif
}

void NAME(digest)(const uint8_t *bytes, size_t length, uint8_t out[32]) {
    blake3_hasher hasher;
    begin(&hasher);
    blake3_hasher_update(&hasher, bytes, length);
    blake3_hasher_finalize(&hasher, out, 32);
}

/* in parts: the state is here, and there is one */
static blake3_hasher state;

void NAME(begin)(void) { begin(&state); }
void NAME(add)(const uint8_t *part, size_t length) { blake3_hasher_update(&state, part, length); }
void NAME(end)(uint8_t out[32]) { blake3_hasher_finalize(&state, out, 32); }
