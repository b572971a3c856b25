/* The mountain range of a log, and the way from a letter's leaf to the root, as a drawing (SVG) for a page. */
#ifndef PICTURE_H
#define PICTURE_H
#include <stdio.h>
#include "view.h"

void draw_range(FILE *out, const View *view);

#endif
