/* The report of a route. */
#ifndef REPORT_H
#define REPORT_H

#include <stdio.h>

#include "route.h"

/* Who uploaded the route's profiles: names every author that is not known, or says that all are known. */
void say_authors(FILE *to, const struct route *r);

/* Says on standard error which profile is refused, with which number, what that means and what to do. */
void say_refusal(const struct route *r);

/* The authors, the figures of each hop and of the route, and the line to write down. */
void say_report(const struct route *r);

#endif
