/* The picture of a route, or of one hop of it. */
#ifndef PICTURE_H
#define PICTURE_H

#include <stdio.h>

#include "plot.h"
#include "route.h"

enum { TITLE_BYTES = 64, SHORT_BYTES = 32, AUTHORS_BYTES = 84, CAPTION_BYTES = 192 };

/* A plot with the words around it. */
struct picture {
    char title[TITLE_BYTES];
    char traffic[CAPTION_BYTES], served[CAPTION_BYTES]; /* what the two lines are */
    char backlog[CAPTION_BYTES], delay[CAPTION_BYTES];  /* the two figures, and where they are measured */
    char authors[AUTHORS_BYTES];                        /* whose authors are not known; "" where all are */
    char marks[CAPTION_BYTES];                          /* the letters at the axes; "" where there are none */
    char ends[CAPTION_BYTES];                           /* where the traffic's line ends before the axis; "" where it does not */
    struct plot plot;
};

/* Makes the picture of an answered route: of a hop, or with 0 of the whole route. Answers the code. */
uint64_t picture_make(struct picture *p, const struct route *r, size_t hop);

/* As text on standard output, and as SVG. */
void picture_text(const struct picture *p);
void picture_svg(const struct picture *p, FILE *to);

#endif
