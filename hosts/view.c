/* A letter taken apart for a reader: its fields, and the way from its leaf to its root. The verdict is the library's; this only shows it. */
#include <string.h>
#include "input.h"
#include "keeper.h"
#include "view.h"

static uint64_t number_at(const uint8_t *at, int width) {
    uint64_t number = 0;
    for (int i = 0; i < width; i++) number = number << 8 | at[i];
    return number;
}

/* The index's peak: its first leaf and its height. Peaks stand tallest first, one for each one-bit of the leaf count. How many are to its left. */
static unsigned find_peak(View *view) {
    unsigned lefts = 0;
    for (view->first = 0, view->height = 33; view->height-- > 0;) {
        uint64_t covered = (uint64_t)1 << view->height;
        if (!(view->leaves & covered)) continue;
        if (view->index - view->first < covered) break;
        view->first += covered;
        lefts++;
    }
    return lefts;
}

/* One step on from a digest. */
static const uint8_t *step(View *view, Step next, const uint8_t *so_far) {
    Step *taken = &view->steps[view->items++];
    *taken = next;
    if (next.given_is_left) digest_of_pair(view->mode, next.given, so_far, taken->digest);
    else digest_of_pair(view->mode, so_far, next.given, taken->digest);
    return taken->digest;
}

/* The items as the letter has them: peaks to the left, siblings from the leaf upward, the peaks to the right as one. */
static void take_steps(View *view, const uint8_t *items, unsigned lefts, int rights) {
    const uint8_t *so_far = view->leaf;
    for (unsigned k = 0; k < view->height; k++) {
        uint64_t sibling = place_of(view->index ^ (uint64_t)1 << k, k);
        so_far = step(view, (Step){SIBLING, view->index >> k & 1, items + NODE * (lefts + k), {0}, sibling, place_of(view->index, k + 1)}, so_far);
    }
    if (rights) so_far = step(view, (Step){RIGHT_PEAKS, 0, items + NODE * (lefts + view->height), {0}, NO_PLACE, NO_PLACE}, so_far);
    uint64_t end = view->first;
    for (unsigned k = lefts; k-- > 0;) {
        unsigned height = (unsigned)__builtin_ctzll(end);
        so_far = step(view, (Step){LEFT_PEAK, 1, items + NODE * k, {0}, place_of(end - 1, height), NO_PLACE}, so_far);
        end -= (uint64_t)1 << height;
    }
}

int view_letter(const keeper_mode *mode, const uint8_t *letter, size_t length, View *view) {
    memset(view, 0, sizeof *view);
    view->mode = mode;
    if (length < LETTER_HEAD) return -1;
    view->size = number_at(letter, 8);
    view->index = number_at(letter + 8, 8);
    view->length = (size_t)number_at(letter + 16, 4);
    if (keeper_leaf_count(view->size, &view->leaves) != KEEPER_DONE || view->index >= view->leaves || view->length > LONGEST_RECORD) return 0;
    unsigned lefts = find_peak(view);
    int rights = (view->leaves & (((uint64_t)1 << view->height) - 1)) != 0;
    if (length != LETTER_HEAD + view->length + NODE * (lefts + view->height + (unsigned)rights)) return 0;
    view->record = letter + LETTER_HEAD;
    keeper_digest(mode, view->record, view->length, view->leaf, NODE);
    take_steps(view, view->record + view->length, lefts, rights);
    return 0;
}

const uint8_t *viewed_root(const View *view) { return view->items == 0 ? view->leaf : view->steps[view->items - 1].digest; }
