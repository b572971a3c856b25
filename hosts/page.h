/* A page for the hearing: one letter, its verdict, and the way from its record to the root, as HTML that needs nothing else. */
#ifndef PAGE_H
#define PAGE_H
#include "view.h"

/* What was checked: the size and root that were noted, whether a key was given with them, and the library's number. */
typedef struct {
    uint64_t size;
    const char *root; /* as it was given */
    int keyed;
    uint32_t number;
    const View *view; /* NULL for what has not even the fields of a letter */
} Verdict;

/* Writes the page, in place of a file of that name: 0, or -1 with errno. */
int page_for_hearing(const char *path, const Verdict *verdict);

#endif
