/* What the host trusts of a log before it hands anything out: the root at a size, and the way from a leaf to it. */
#ifndef TRUSTED_H
#define TRUSTED_H
#include "options.h"
#include "store.h"

/* The size that is asked for, or the log's own; and how many bytes of nodes are lent for it. */
uint64_t size_asked(const Store *log, const Asked *asked);
size_t lent(const Store *log);

/* The root at a size: the library's number. Where the nodes that it hangs on do not lead to the log's own root, the program fails. */
uint32_t trusted_root(const Store *log, uint64_t size, uint8_t root[NODE]);

/* Fails where the nodes above a leaf do not lead to the root at that size. */
void demand_way(const Store *log, uint64_t size, uint64_t index);

/* Fails: a node is damaged, and nothing was written. */
_Noreturn void fail_damaged(const Store *log, const Wrong *wrong);

#endif
