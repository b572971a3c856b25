/* The digest's calls, as C sees them, in libdigest_c.a (rt staticlib digest_c). A lent slice is two arguments, a pointer
   and a length in bytes; 32 lent bytes are one pointer. The caller owes that each pointer is good for its bytes and that
   out overlaps no input. Nothing checks this file against src/lib.rt. */
#ifndef DIGEST_C_H
#define DIGEST_C_H
#include <stddef.h>
#include <stdint.h>
#ifdef __cplusplus
extern "C" {
#endif

/* a mode: keyed 0 is plain, and the key then means nothing; any other number is keyed */
typedef struct digest_c_mode {
    uint32_t keyed;
    uint8_t key[32];
} digest_c_mode;

/* the digest of bytes, into out */
void digest_c_of(const digest_c_mode *mode, const uint8_t *bytes, size_t length, uint8_t out[32]);

/* the digest of two digests, left then right, into out */
void digest_c_pair(const digest_c_mode *mode, const uint8_t left[32], const uint8_t right[32], uint8_t out[32]);

#ifdef __cplusplus
}
#endif
#endif
