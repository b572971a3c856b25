/* A letter taken apart for a reader: its fields, and the way from its leaf to its root. */
#ifndef VIEW_H
#define VIEW_H
#include <stddef.h>
#include <stdint.h>
#include "tree.h"

enum { LETTER_HEAD = 20, MOST_STEPS = 32 };

/* One step up: a digest that the letter gives, on the left or the right of the one worked out so far, and the digest of both. */
typedef enum { SIBLING, RIGHT_PEAKS, LEFT_PEAK } Kind;
typedef struct {
    Kind kind;
    int given_is_left;
    const uint8_t *given;
    uint8_t digest[NODE];
    uint64_t given_place, place; /* positions in the log; what is folded for the root has none, NO_PLACE */
} Step;
#define NO_PLACE UINT64_MAX

typedef struct {
    const keeper_mode *mode;
    uint64_t size, index;   /* as the letter names them */
    size_t length;          /* of the record, as it is stated */
    const uint8_t *record;  /* NULL where the letter is not of its exact length: then there are no steps */
    uint64_t leaves, first; /* of the log; the first leaf of the index's peak */
    unsigned height;        /* of that peak */
    unsigned items;
    uint8_t leaf[NODE];
    Step steps[MOST_STEPS]; /* one for each item, from the leaf up */
} View;

/* 0, or -1 for what has not even the fields of a letter. */
int view_letter(const keeper_mode *mode, const uint8_t *letter, size_t length, View *view);

/* The root that was worked out. */
const uint8_t *viewed_root(const View *view);

#endif
