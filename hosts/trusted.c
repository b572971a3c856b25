/* What the host trusts of a log before it hands anything out: the root at a size, and the way from a leaf to it.
   The log's own root is kept beside its size. What the log was at a smaller size is trusted where its peaks lead to that root. */
#include <inttypes.h>
#include "keeper.h"
#include "say.h"
#include "trusted.h"

uint64_t size_asked(const Store *log, const Asked *asked) { return asked->size ? number_in(asked->size, "log's size") : log->size; }

size_t lent(const Store *log) { return NODE * log->size; }

void fail_damaged(const Store *log, const Wrong *wrong) {
    if (wrong)
        fail("the nodes of %s are damaged: the one at position %" PRIu64 " is not the digest of those at %" PRIu64 " and %" PRIu64
             ". Nothing was written; keeper verify %s looks further.", log->file.path, wrong->position, wrong->left, wrong->right, log->file.path);
    fail("the nodes of %s are damaged: they do not lead to its root. Nothing was written; keeper verify %s looks further.", log->file.path, log->file.path);
}

uint32_t trusted_root(const Store *log, uint64_t size, uint8_t root[NODE]) {
    Wrong wrong;
    uint64_t leaves = 0;
    uint32_t number = keeper_root(log->mode, size, store_nodes(log), lent(log), root, NODE);
    if (number != KEEPER_DONE || size == log->size) return number;
    keeper_leaf_count(size, &leaves);
    if (wrong_above_peaks(log->mode, store_nodes(log), store_leaves(log), leaves, &wrong)) fail_damaged(log, &wrong);
    return KEEPER_DONE;
}

void demand_way(const Store *log, uint64_t size, uint64_t index) {
    Wrong wrong;
    uint64_t leaves = 0;
    keeper_leaf_count(size, &leaves);
    if (wrong_above(log->mode, store_nodes(log), leaves, index, 0, &wrong)) fail_damaged(log, &wrong);
}
