/* A page for the hearing: one letter, its verdict, and the way from its record to the root, as HTML that needs nothing else. */
#include <inttypes.h>
#include <stdio.h>
#include <string.h>
#include "answer.h"
#include "keeper.h"
#include "numbers.h"
#include "page.h"
#include "picture.h"

static const char style[] =
    "body{font:16px/1.45 system-ui,sans-serif;color:#1b1f24;background:#fff;max-width:50rem;margin:0 auto;padding:1.5rem}"
    "h1{font-size:2.6rem;letter-spacing:.06em;margin:0}h2{font-size:1.15rem;margin:1.8rem 0 .5rem}"
    "header{border:4px solid;border-radius:6px;padding:1rem 1.3rem;print-color-adjust:exact;-webkit-print-color-adjust:exact}"
    ".accepted header{border-color:#116329;background:#e6f6ea}.accepted h1{color:#116329}"
    ".refused header{border:8px double #a40e26;background:#ffebe9}.refused h1{color:#a40e26}"
    ".mark{display:none}.refused .mark{display:block;position:fixed;top:40%;left:0;right:0;text-align:center;font-size:7rem;font-weight:800;"
    "letter-spacing:.1em;color:#a40e26;opacity:.14;transform:rotate(-24deg);pointer-events:none}"
    "table{border-collapse:collapse;width:100%}th,td{text-align:left;vertical-align:top;padding:.2rem .6rem .2rem 0}th{font-weight:600;white-space:nowrap;width:1px}"
    "code,pre{font:13px/1.4 ui-monospace,monospace;overflow-wrap:anywhere;white-space:pre-wrap}"
    "pre{border:1px solid #818b98;border-radius:4px;padding:.8rem;margin:.4rem 0}.refused pre{border:2px dashed #a40e26}"
    "tr.result td,tr.result th{border-bottom:1px solid #d1d9e0;padding-bottom:.5rem}.is-given{color:#7a4d00}.is-worked{color:#0a4fb0}"
    "svg{width:100%;height:auto}svg text{font:13px system-ui,sans-serif;text-anchor:middle;fill:#1b1f24}svg .word{fill:#59636e}"
    "svg .step{font-size:10px;font-weight:700;fill:#fff}.own{fill:#ddf4ff;stroke:#0a4fb0}.other{fill:#f6f8fa;stroke:#818b98}"
    ".given{fill:#fff1c2;stroke:#9a6700;stroke-width:2}.worked{fill:#0a4fb0;stroke:#0a4fb0}.way{stroke:#0a4fb0;stroke-width:3}"
    ".edge{stroke:#818b98;stroke-width:1.5}.fold{stroke:#818b98;stroke-width:1.5;stroke-dasharray:5 4}"
    "@media print{body{padding:0;max-width:none;font-size:10pt}h1{font-size:22pt}h2{margin:1.1rem 0 .3rem;break-after:avoid}code,pre{font-size:7.6pt}"
    "tr,svg,pre,header{break-inside:avoid}td,th{padding:.05rem .5rem .05rem 0}svg{max-height:80mm}@page{margin:16mm}}";

/* ---- parts */

static void put_escaped(FILE *out, const uint8_t *bytes, size_t count) {
    for (size_t i = 0; i < count; i++) {
        if (bytes[i] == '<') fputs("&lt;", out);
        else if (bytes[i] == '>') fputs("&gt;", out);
        else if (bytes[i] == '&') fputs("&amp;", out);
        else if (bytes[i] == '"') fputs("&quot;", out);
        else fputc(bytes[i], out);
    }
}

static void put_digest(FILE *out, const uint8_t *digest) {
    char digits[2 * NODE + 1];
    hex_of(digest, NODE, digits);
    fprintf(out, "<code>%s</code>", digits);
}

static void put_head(FILE *out, const Verdict *verdict) {
    int accepted = verdict->number == KEEPER_DONE;
    const char *word = accepted ? "ACCEPTED" : "REFUSED";
    fprintf(out, "<!doctype html>\n<html lang=\"en\" class=\"%s\">\n<head>\n<meta charset=\"utf-8\">\n", accepted ? "accepted" : "refused");
    fputs("<meta http-equiv=\"Content-Security-Policy\" content=\"default-src 'none'; style-src 'unsafe-inline'\">\n"
          "<meta name=\"viewport\" content=\"width=device-width\">\n", out);
    if (accepted) fprintf(out, "<title>ACCEPTED: the record with index %" PRIu64 "</title>\n", verdict->view->index);
    else fprintf(out, "<title>REFUSED, number %u: a letter that proves nothing</title>\n", (unsigned)verdict->number);
    fprintf(out, "<style>%s</style>\n</head>\n<body>\n<div class=\"mark\" aria-hidden=\"true\">%s</div>\n", style, word);
    fprintf(out, "<header id=\"verdict\">\n<h1>%s</h1>\n", word);
    if (accepted)
        fprintf(out, "<p>The record below is the one that was logged at index %" PRIu64 " of the log whose size and root were noted.</p>\n</header>\n",
                verdict->view->index);
    else
        fprintf(out, "<p><strong>Number %u: %s.</strong> %s</p>\n<p>This letter is no evidence of anything.</p>\n</header>\n", (unsigned)verdict->number,
                words_of(verdict->number)->meaning, words_of(verdict->number)->advice);
}

static void put_noted(FILE *out, const Verdict *verdict) {
    uint64_t leaves = 0;
    uint32_t number = keeper_leaf_count(verdict->size, &leaves);
    fprintf(out, "<section>\n<h2>What was noted</h2>\n<table>\n<tr><th>size</th><td>%" PRIu64, verdict->size);
    if (number == KEEPER_DONE) fprintf(out, ", which is a log of %" PRIu64 " records", leaves);
    fprintf(out, "</td></tr>\n<tr><th>root</th><td><code id=\"noted\">%s</code></td></tr>\n", verdict->root);
    if (verdict->keyed) fputs("<tr><th>key</th><td id=\"key\">given, and not shown</td></tr>\n", out);
    fputs("</table>\n</section>\n", out);
}

static void put_contents(FILE *out, const Verdict *verdict) {
    const View *view = verdict->view;
    int accepted = verdict->number == KEEPER_DONE;
    fprintf(out, "<section>\n<h2>%s</h2>\n", accepted ? "The record" : "What the refused letter says, and does not prove");
    fprintf(out, "<table>\n<tr><th>index</th><td id=\"index\">%" PRIu64 "</td></tr>\n", view->index);
    if (!accepted) fprintf(out, "<tr><th>size</th><td>%" PRIu64 "</td></tr>\n", view->size);
    fprintf(out, "<tr><th>length</th><td>%zu bytes</td></tr>\n", view->length);
    if (!view->record) {
        fputs("</table>\n<p>It is not of the form that a letter has, so that no record can be shown.</p>\n</section>\n", out);
        return;
    }
    int text = is_text(view->record, view->length);
    fprintf(out, "<tr><th>shown as</th><td>%s</td></tr>\n</table>\n<pre id=\"record\">", text ? "text" : "hexadecimal digits");
    if (text) put_escaped(out, view->record, view->length);
    for (size_t i = 0; !text && i < view->length; i++) fprintf(out, "%02x", view->record[i]);
    fputs("</pre>\n</section>\n", out);
}

/* ---- the way */

static void put_row(FILE *out, const char *class, const char *what, uint64_t place, const uint8_t *digest, int given) {
    fprintf(out, "<tr class=\"%s\"><th>%s</th><td class=\"is-%s\">%s", class, what, given ? "given" : "worked", given ? "given" : "worked out");
    if (place != NO_PLACE) fprintf(out, ", position %" PRIu64, place);
    fputs("</td><td>", out);
    put_digest(out, digest);
    fputs("</td></tr>\n", out);
}

static void put_step(FILE *out, const View *view, unsigned k) {
    static const char *const words[] = {[SIBLING] = "with the digest beside it", [RIGHT_PEAKS] = "with the peaks to the right, folded into one",
                                        [LEFT_PEAK] = "with the peak to the left"};
    const Step *step = &view->steps[k], *before = k > 0 ? &view->steps[k - 1] : NULL;
    const uint8_t *so_far = before ? before->digest : view->leaf;
    uint64_t place = before ? before->place : place_of(view->index, 0);
    fprintf(out, "<tr><th colspan=\"3\">%u, %s</th></tr>\n", k + 2, words[step->kind]);
    if (step->given_is_left) put_row(out, "", "left", step->given_place, step->given, 1);
    put_row(out, "", step->given_is_left ? "right" : "left", place, so_far, 0);
    if (!step->given_is_left) put_row(out, "", "right", step->given_place, step->given, 1);
    put_row(out, "result", "digest", step->place, step->digest, 0);
}

static void put_way(FILE *out, const Verdict *verdict) {
    const View *view = verdict->view;
    char worked[2 * NODE + 1];
    hex_of(viewed_root(view), NODE, worked);
    fprintf(out, "<section>\n<h2>The way from the record to the root%s</h2>\n", verdict->number == KEEPER_DONE ? "" : " that this letter gives");
    fputs("<p>Each mountain is a peak of the log, with the number of its records below it. Squares are digests that the letter gives, numbered circles "
          "those that were worked out, in this order; a circle is the digest of the two below it.</p>\n", out);
    draw_range(out, view);
    fputs("</section>\n<section>\n<h2>Each digest</h2>\n<table>\n<tr><th colspan=\"3\">1, the record</th></tr>\n", out);
    put_row(out, "result", "digest", place_of(view->index, 0), view->leaf, 0);
    for (unsigned k = 0; k < view->items; k++) put_step(out, view, k);
    fprintf(out, "<tr><th>root</th><td class=\"is-worked\">worked out</td><td><code id=\"worked\">%s</code></td></tr>\n", worked);
    fprintf(out, "<tr><th>root</th><td>noted</td><td><code>%s</code></td></tr>\n</table>\n", verdict->root);
    fprintf(out, "<p><strong>%s</strong></p>\n</section>\n",
            verdict->number == KEEPER_DONE ? "The two roots are the same." :
            verdict->number == KEEPER_OTHER_ROOT ? "The two roots differ: the letter is refused." : "The letter is refused, whatever its root.");
}

static void put_meaning(FILE *out, const Verdict *verdict) {
    if (verdict->number != KEEPER_DONE) {
        fputs("<section>\n<h2>What a refused letter means</h2>\n<p>It proves nothing: neither that the record was logged, nor that it was not. A true letter "
              "may have been damaged on its way: ask for it again, for the size that was noted.</p>\n</section>\n", out);
        return;
    }
    fputs("<section>\n<h2>What this proves</h2>\n<p>That this record, byte for byte, was logged at this index of the log that had the noted size and root. "
          "The one exception: somebody may have found two different byte strings with one BLAKE3 digest", out);
    fputs(verdict->keyed ? " under the key" : "", out);
    fputs(", which nobody is known to have done; then "
          "<code>keeper find</code>, given the log, hands over those two strings.</p>\n<h2>What it does not prove</h2>\n<ul>\n"
          "<li>That the call was right: it shows what was logged, not where the ball was.</li>\n"
          "<li>Who wrote the log: that the noted size and root are those of the match must be known from elsewhere.</li>\n"
          "<li>That the log was complete, or kept in real time.</li>\n</ul>\n"
          "<p>The check itself is proved; this page and its drawing are made beside it, by a program that is not. Who doubts it checks the letter again, with "
          "<code>keeper check</code> or <code>panel</code>", out);
    fputs(verdict->keyed ? " and the same key.</p>\n</section>\n" : ".</p>\n</section>\n", out);
}

int page_for_hearing(const char *path, const Verdict *verdict) {
    FILE *out = fopen(path, "we");
    if (!out) return -1;
    put_head(out, verdict);
    put_noted(out, verdict);
    if (verdict->view) put_contents(out, verdict);
    if (verdict->view && verdict->view->record) put_way(out, verdict);
    put_meaning(out, verdict);
    fputs("</body>\n</html>\n", out);
    int lost = ferror(out);
    return fclose(out) != 0 || lost ? -1 : 0;
}
