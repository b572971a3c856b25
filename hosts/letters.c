/* Letters of both kinds, of one record and of a passage: as they come in, and what the library says of them. */
#include "keeper.h"
#include "letters.h"

int try_letter(Letter *letter, const char *path) {
    ssize_t length = try_bytes(path, letter->bytes, sizeof letter->bytes);
    letter->length = length < 0 ? 0 : (size_t)length;
    return length < 0 ? -1 : 0;
}

void read_letter(Letter *letter, const char *path) {
    if (try_letter(letter, path) != 0) fail_unread(path);
}

static uint64_t number_at(const uint8_t *at, int width) {
    uint64_t number = 0;
    for (int i = 0; i < width; i++) number = number << 8 | at[i];
    return number;
}

uint64_t stated_size(const Letter *letter) { return letter->length < 8 ? 0 : number_at(letter->bytes, 8); }

uint64_t stated_count(const Letter *letter) { return letter->length < PASSAGE_HEAD ? 0 : number_at(letter->bytes + 8, 2); }

int is_passage(const Letter *letter) { return stated_count(letter) != 0; }

/* The records of a passage letter as far as they can be read, whatever they are worth. */
static void take_entries(const Letter *letter, Judged *judged) {
    uint64_t at = PASSAGE_HEAD, stated = stated_count(letter), most = stated < MOST_RECORDS ? stated : MOST_RECORDS, k = 0;
    for (; k < most && at <= letter->length && letter->length - at >= ENTRY_HEAD; k++) {
        judged->indexes[k] = number_at(letter->bytes + at, 8);
        judged->lengths[k] = number_at(letter->bytes + at + 8, 4);
        judged->starts[k] = at + ENTRY_HEAD;
        at += ENTRY_HEAD + judged->lengths[k];
    }
    judged->count = k;
}

static void judge_passage(const keeper_mode *mode, uint64_t size, const uint8_t *top, size_t top_length, const Letter *letter, Judged *judged) {
    judged->number = keeper_passage_entries(mode, size, top, top_length, letter->bytes, letter->length, judged->indexes, MOST_RECORDS, judged->starts,
                                            MOST_RECORDS, judged->lengths, MOST_RECORDS, &judged->count);
    if (judged->number != KEEPER_DONE) take_entries(letter, judged);
}

void judge_letter(const keeper_mode *mode, uint64_t size, const uint8_t *top, size_t top_length, const Letter *letter, Judged *judged) {
    size_t at, length;
    judged->count = 0;
    if (is_passage(letter)) {
        judge_passage(mode, size, top, top_length, letter, judged);
        return;
    }
    judged->number = keeper_letter_check(mode, size, top, top_length, letter->bytes, letter->length, judged->indexes, &at, &length);
    if (judged->number != KEEPER_DONE) return;
    judged->count = 1;
    judged->starts[0] = at;
    judged->lengths[0] = length;
}
