/* The mountain range of a log, and the way from a letter's leaf to the root, as a drawing (SVG) for a page. */
#include <inttypes.h>
#include "picture.h"

enum { PEAKS = 33, WIDTH = 760, MARGIN = 20, FOLD_ROW = 34, TOP_ROOM = 40, ABOVE = 30, ROW_ROOM = 210 };

/* A peak: its height, the index of its first leaf, where its foot begins and ends, and its top. */
typedef struct {
    unsigned height;
    uint64_t first;
    double from, to, x, y;
} Peak;

typedef struct {
    FILE *out;
    const View *view;
    Peak peaks[PEAKS];
    int count, own;
    double base;
} Drawing;

/* The peaks, tallest first, side by side: a taller one is drawn wider and higher, though not by as much as it is. */
static void place_peaks(Drawing *drawing) {
    unsigned weights = 0, tallest = 0, folds = drawing->view->items - drawing->view->height;
    uint64_t first = 0;
    for (unsigned height = PEAKS; height-- > 0;) {
        if (!(drawing->view->leaves >> height & 1)) continue;
        if (drawing->count == 0) tallest = height;
        if (first == drawing->view->first) drawing->own = drawing->count;
        drawing->peaks[drawing->count++] = (Peak){.height = height, .first = first};
        first += (uint64_t)1 << height;
        weights += height + 1;
    }
    drawing->base = TOP_ROOM + (folds ? ABOVE + FOLD_ROW * (folds - 1) : 0) + (tallest ? ROW_ROOM : 0);
    double from = MARGIN, each = (double)(WIDTH - 2 * MARGIN) / weights;
    for (int i = 0; i < drawing->count; i++) {
        Peak *peak = &drawing->peaks[i];
        peak->from = from;
        peak->to = from += each * (peak->height + 1);
        peak->x = (peak->from + peak->to) / 2;
        peak->y = drawing->base - (tallest ? ROW_ROOM * (double)peak->height / tallest : 0);
    }
}

static void draw_line(const Drawing *drawing, const char *class, double x1, double y1, double x2, double y2) {
    fprintf(drawing->out, "<line class=\"%s\" x1=\"%.1f\" y1=\"%.1f\" x2=\"%.1f\" y2=\"%.1f\"/>\n", class, x1, y1, x2, y2);
}

/* Given digests are squares, worked out ones circles: the two can be told apart without colour. */
static void draw_given(const Drawing *drawing, double x, double y) {
    fprintf(drawing->out, "<rect class=\"given\" x=\"%.1f\" y=\"%.1f\" width=\"11\" height=\"11\"/>\n", x - 5.5, y - 5.5);
}

static void draw_worked(const Drawing *drawing, double x, double y, unsigned step) {
    fprintf(drawing->out, "<circle class=\"worked\" cx=\"%.1f\" cy=\"%.1f\" r=\"9\"/><text class=\"step\" x=\"%.1f\" y=\"%.1f\">%u</text>\n", x, y, x,
            y + 3.5, step);
}

/* Where the node of a height over a leaf of the own peak is drawn. */
static double across(const Drawing *drawing, uint64_t index, unsigned height) {
    const Peak *own = &drawing->peaks[drawing->own];
    double middle = (double)((index - own->first) >> height << height) + (double)((uint64_t)1 << height) / 2;
    return own->from + (own->to - own->from) * middle / (double)((uint64_t)1 << own->height);
}

static double up(const Drawing *drawing, unsigned height) {
    const Peak *own = &drawing->peaks[drawing->own];
    return own->height == 0 ? own->y : drawing->base - (drawing->base - own->y) * height / own->height;
}

/* A mountain's side goes through the outermost node of each height, so that all of its nodes are inside. */
static void draw_side(const Drawing *drawing, const Peak *peak, int right) {
    for (unsigned i = 0; i <= peak->height; i++) {
        unsigned k = right ? peak->height - i : i;
        double in = (peak->to - peak->from) / 2 * (double)((uint64_t)1 << k) / (double)((uint64_t)1 << peak->height);
        double y = peak->height ? drawing->base - (drawing->base - peak->y) * k / peak->height : peak->y;
        fprintf(drawing->out, " %.1f,%.1f", right ? peak->to - in + (k < peak->height ? 9 : 0) : peak->from + in - (k < peak->height ? 9 : 0), y - 13);
    }
}

static void draw_mountains(const Drawing *drawing) {
    for (int i = 0; i < drawing->count; i++) {
        const Peak *peak = &drawing->peaks[i];
        fprintf(drawing->out, "<polygon class=\"%s\" points=\"%.1f,%.1f", i == drawing->own ? "own" : "other", peak->from + 1, drawing->base + 13);
        draw_side(drawing, peak, 0);
        draw_side(drawing, peak, 1);
        fprintf(drawing->out, " %.1f,%.1f\"/>\n", peak->to - 1, drawing->base + 13);
        if (peak->to - peak->from > 36)
            fprintf(drawing->out, "<text class=\"word\" x=\"%.1f\" y=\"%.1f\">%" PRIu64 "</text>\n", peak->x, drawing->base + 30, (uint64_t)1 << peak->height);
    }
}

/* Within the own peak: each sibling that is given, and each parent that is worked out. */
static void draw_way(const Drawing *drawing) {
    const View *view = drawing->view;
    for (unsigned k = 0; k < view->height; k++) {
        double x = across(drawing, view->index, k + 1), y = up(drawing, k + 1), beside = across(drawing, view->index ^ (uint64_t)1 << k, k);
        draw_line(drawing, "way", across(drawing, view->index, k), up(drawing, k), x, y);
        draw_line(drawing, "edge", beside, up(drawing, k), x, y);
        draw_given(drawing, beside, up(drawing, k));
    }
    for (unsigned k = 0; k <= view->height; k++) draw_worked(drawing, across(drawing, view->index, k), up(drawing, k), k + 1);
}

/* Above the range: the peaks to the right as one, then each to the left. */
static void draw_folds(const Drawing *drawing) {
    const View *view = drawing->view;
    const Peak *own = &drawing->peaks[drawing->own];
    double x = own->x, y = own->y, top = drawing->base - (view->items > 0 ? ROW_ROOM : 0) - ABOVE;
    int left = drawing->own;
    for (unsigned k = view->height; k < view->items; k++) {
        int is_right = view->steps[k].kind == RIGHT_PEAKS;
        const Peak *peak = is_right ? &drawing->peaks[drawing->own + 1] : &drawing->peaks[--left];
        double given_x = is_right ? (peak->from + drawing->peaks[drawing->count - 1].to) / 2 : peak->x, given_y = is_right ? top + 4 : peak->y;
        double next_x = (x + given_x) / 2, next_y = top - FOLD_ROW * (double)(k - view->height);
        for (int i = drawing->own + 1; is_right && i < drawing->count; i++) draw_line(drawing, "fold", drawing->peaks[i].x, drawing->peaks[i].y, given_x, given_y);
        draw_line(drawing, "way", x, y, next_x, next_y);
        draw_line(drawing, "edge", given_x, given_y, next_x, next_y);
        draw_given(drawing, given_x, given_y);
        draw_worked(drawing, x, y, k + 1);
        draw_worked(drawing, next_x, next_y, k + 2);
        x = next_x;
        y = next_y;
    }
    fprintf(drawing->out, "<text class=\"word\" x=\"%.1f\" y=\"%.1f\">root</text>\n", x, y - 16);
}

void draw_range(FILE *out, const View *view) {
    Drawing drawing = {.out = out, .view = view};
    place_peaks(&drawing);
    fprintf(out, "<svg viewBox=\"0 0 %d %.0f\" role=\"img\" aria-labelledby=\"t d\"><title id=\"t\">The way from the record to the root</title>\n", WIDTH,
            drawing.base + 44);
    fprintf(out, "<desc id=\"d\">A log of %" PRIu64 " records in %d peaks. The record with index %" PRIu64
                 " is in peak %d, of height %u; %u digests are given, and %u are worked out.</desc>\n",
            view->leaves, drawing.count, view->index, drawing.own + 1, view->height, view->items, view->items + 1);
    draw_mountains(&drawing);
    draw_way(&drawing);
    draw_folds(&drawing);
    fprintf(out, "</svg>\n");
}
