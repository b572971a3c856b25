/* Where the nodes of a log stand, and whether each inner node is the digest of its two children. */
#ifndef TREE_H
#define TREE_H
#include <stdint.h>
#include "keeper.h"

enum { NODE = 32 };

/* The digest of two digests, left before right. */
void digest_of_pair(const keeper_mode *mode, const uint8_t *left, const uint8_t *right, uint8_t out[NODE]);

/* A node that is not the digest of its two children, and where those stand. */
typedef struct {
    uint64_t position, left, right;
} Wrong;

/* The lowest wrong node among those that were written with the leaves from one index up to another: whether there is one. */
int wrong_among(const keeper_mode *mode, const uint8_t *nodes, uint64_t first, uint64_t leaves, Wrong *wrong);

/* The same among the nodes above a node of a log of so many leaves, up to its peak: the node of that height over the leaf of that index. */
int wrong_above(const keeper_mode *mode, const uint8_t *nodes, uint64_t leaves, uint64_t index, unsigned height, Wrong *wrong);

/* The same above each peak of the first so many leaves: whether what the log was at that count leads to what it is now. */
int wrong_above_peaks(const keeper_mode *mode, const uint8_t *nodes, uint64_t leaves, uint64_t first_leaves, Wrong *wrong);

/* Works every inner node out anew, from the leaves up. */
void rebuild(const keeper_mode *mode, uint8_t *nodes, uint64_t leaves);

/* Where the node of a height over a leaf stands. */
uint64_t place_of(uint64_t index, unsigned height);

#endif
