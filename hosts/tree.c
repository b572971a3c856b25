/* Where the nodes of a log stand, and whether each inner node is the digest of its two children. */
#include <string.h>
#include "keeper.h"
#include "tree.h"

void digest_of_pair(const keeper_mode *mode, const uint8_t *left, const uint8_t *right, uint8_t out[NODE]) {
    uint8_t pair[2 * NODE];
    memcpy(pair, left, NODE);
    memcpy(pair + NODE, right, NODE);
    keeper_digest(mode, pair, sizeof pair, out, NODE);
}

/* A perfect tree of height h has 2^(h + 1) - 1 nodes: left subtree, right subtree, their parent. */
static uint64_t nodes_in(unsigned height) { return ((uint64_t)2 << height) - 1; }

/* The first leaf of the subtree stands where its index says, and the subtree's own node at its end. */
uint64_t place_of(uint64_t index, unsigned height) {
    uint64_t first = 0;
    keeper_leaf_position(index >> height << height, &first);
    return first + nodes_in(height) - 1;
}

/* The parent at a position and height: its children stand before it, the right one next to it. */
static int is_wrong(const keeper_mode *mode, const uint8_t *nodes, uint64_t position, unsigned height, Wrong *wrong) {
    uint8_t digest[NODE];
    Wrong parent = {position, position - 1 - nodes_in(height - 1), position - 1};
    digest_of_pair(mode, nodes + NODE * parent.left, nodes + NODE * parent.right, digest);
    if (memcmp(digest, nodes + NODE * position, NODE) == 0) return 0;
    *wrong = parent;
    return 1;
}

int wrong_among(const keeper_mode *mode, const uint8_t *nodes, uint64_t first, uint64_t leaves, Wrong *wrong) {
    uint64_t position = 0;
    keeper_leaf_position(first, &position);
    for (uint64_t index = first; index < leaves; index++, position++)
        for (unsigned height = 1; index >> (height - 1) & 1; height++)
            if (is_wrong(mode, nodes, ++position, height, wrong)) return 1;
    return 0;
}

int wrong_above(const keeper_mode *mode, const uint8_t *nodes, uint64_t leaves, uint64_t index, unsigned height, Wrong *wrong) {
    while (((index >> (height + 1)) + 1) << (height + 1) <= leaves)
        if (is_wrong(mode, nodes, place_of(index, height + 1), height + 1, wrong)) return 1;
        else height++;
    return 0;
}

int wrong_above_peaks(const keeper_mode *mode, const uint8_t *nodes, uint64_t leaves, uint64_t first_leaves, Wrong *wrong) {
    uint64_t index = 0;
    for (unsigned height = 33; height-- > 0;) {
        if (!(first_leaves >> height & 1)) continue;
        if (wrong_above(mode, nodes, leaves, index, height, wrong)) return 1;
        index += (uint64_t)1 << height;
    }
    return 0;
}

void rebuild(const keeper_mode *mode, uint8_t *nodes, uint64_t leaves) {
    uint64_t position = 0;
    for (uint64_t index = 0; index < leaves; index++, position++)
        for (unsigned height = 1; index >> (height - 1) & 1; height++) {
            position++;
            digest_of_pair(mode, nodes + NODE * (position - 1 - nodes_in(height - 1)), nodes + NODE * (position - 1), nodes + NODE * position);
        }
}
