/* A letter that was checked, in words and as an object. */
#include <inttypes.h>
#include <string.h>
#include "answer.h"
#include "keeper.h"
#include "shown.h"

int is_accepted(const Checked *checked) { return checked->judged.number == KEEPER_DONE; }

const char *called_letter(const Checked *checked) { return is_passage(&checked->letter) ? "passage letter" : "letter"; }

/* How many digests stand behind the records of an accepted passage letter. */
static uint64_t items_behind(const Checked *checked) {
    size_t last = (size_t)checked->judged.count - 1;
    return (checked->letter.length - checked->judged.starts[last] - checked->judged.lengths[last]) / NODE;
}

/* ---- words */

static const char *shown_as(const uint8_t *record, size_t length) { return is_text(record, length) ? "text" : "hexadecimal digits"; }

/* A record as text where it is text, else in hexadecimal digits. */
static void show_record(const uint8_t *record, size_t length) {
    int text = is_text(record, length);
    for (size_t from = 0, to; from < length; from = to) {
        const uint8_t *end = text ? memchr(record + from, '\n', length - from) : NULL;
        char digits[2 * NODE + 1];
        to = end ? (size_t)(end - record) + 1 : text ? length : from + NODE < length ? from + NODE : length;
        if (!text) hex_of(record + from, to - from, digits);
        if (text) line("    %.*s", (int)(to - from - (end ? 1 : 0)), (const char *)record + from);
        else line("    %s", digits);
    }
}

static const char *says(const Checked *checked) { return is_accepted(checked) ? "" : "it says, and was refused: "; }

static void show_single(const Checked *checked) {
    const View *view = &checked->view;
    if (checked->letter.length < LETTER_HEAD) return;
    line("  %ssize %" PRIu64 ", index %" PRIu64 ", a record of %zu bytes, %u items", says(checked), view->size, view->index, view->length,
         view->items);
    if (!view->record) return;
    line("  record, as %s:", shown_as(view->record, view->length));
    show_record(view->record, view->length);
}

/* How a passage letter begins. Of a refused one nothing says how many digests it has. */
static void show_head(const Checked *checked) {
    uint64_t size = stated_size(&checked->letter), count = stated_count(&checked->letter);
    if (is_accepted(checked)) line("  size %" PRIu64 ", %" PRIu64 " records, %" PRIu64 " items", size, count, items_behind(checked));
    else line("  %ssize %" PRIu64 ", %" PRIu64 " records", says(checked), size, count);
}

/* Index and length of each record, and where they are shown, the records; none of a refused letter. */
static void list_records(const Checked *checked, int show) {
    const Judged *judged = &checked->judged;
    for (size_t k = 0; k < judged->count; k++) {
        const uint8_t *record = show && is_accepted(checked) ? checked->letter.bytes + judged->starts[k] : NULL;
        size_t length = (size_t)judged->lengths[k];
        if (!record) line("  index %" PRIu64 ", a record of %zu bytes", judged->indexes[k], length);
        else line("  index %" PRIu64 ", a record of %zu bytes, as %s:", judged->indexes[k], length, shown_as(record, length));
        if (record) show_record(record, length);
    }
}

void tell_accepted(const Checked *checked, const char *name, const char *colon) {
    const Judged *judged = &checked->judged;
    const char *ending = judged->count == 1 ? "" : "s";
    if (is_passage(&checked->letter)) line("%s%saccepted: a passage of %" PRIu64 " record%s", name, colon, judged->count, ending);
    else line("%s%saccepted: index %" PRIu64 ", a record of %" PRIu64 " bytes", name, colon, judged->indexes[0], judged->lengths[0]);
}

void tell_rest(const Checked *checked, int show) {
    int passage = is_passage(&checked->letter);
    if (show && passage) show_head(checked);
    if (show && !passage) show_single(checked);
    if (passage && (show || is_accepted(checked))) list_records(checked, show);
}

/* ---- objects */

static void put_single(const Checked *checked) {
    const View *view = &checked->view;
    if (checked->letter.length < LETTER_HEAD) return;
    put_number("letter_size", view->size);
    put_number("index", view->index);
    if (!view->record) return;
    put_number("items", view->items);
    put_record(view->record, view->length);
}

static void put_passage(const Checked *checked) {
    const Judged *judged = &checked->judged;
    put_number("letter_size", stated_size(&checked->letter));
    put_number("record_count", stated_count(&checked->letter));
    if (is_accepted(checked)) put_number("items", items_behind(checked));
    put_open("entries", '[');
    for (size_t k = 0; k < judged->count; k++) {
        put_open(NULL, '{');
        put_number("index", judged->indexes[k]);
        if (is_accepted(checked)) put_record(checked->letter.bytes + judged->starts[k], (size_t)judged->lengths[k]);
        else put_number("record_length", judged->lengths[k]);
        put_close();
    }
    put_close();
}

void put_letter(const Checked *checked, const char *file) {
    if (file) put_text("file", file);
    put_flag("accepted", is_accepted(checked));
    if (!is_accepted(checked)) put_refusal(checked->judged.number);
    if (checked->letter.length >= PASSAGE_HEAD) put_text("kind", is_passage(&checked->letter) ? "passage" : "single");
    if (is_passage(&checked->letter)) put_passage(checked);
    else put_single(checked);
}
