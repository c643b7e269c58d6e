/* Profiles and refusals in words. */
#ifndef SAY_H
#define SAY_H

#include <stdio.h>

#include "store.h"

/* A profile with what it holds, in words and numbers, and who uploaded it. In full: all buckets of a curve, and the file's edition;
 * otherwise the first few buckets. */
void say_entry(FILE *to, const struct entry *e, int in_full);

/* Adds to a text what a port serves: "6 bits a tick after a latency of 4 ticks"; of a device that only delays, "all there is after a
 * latency of 4 ticks". */
void add_server(char *to, size_t room, struct server s);

/* Adds to a text what a link is: "a link of 100 bits a tick with frames of up to 12304 bits". */
void add_link(char *to, size_t room, struct link l);

/* Adds to a text what traffic brings: "up to 2 bits at once, 3 a tick in the long run". */
void add_curve(char *to, size_t room, const struct curve *c);

/* What a code means and what to do about it, each under its own heading; between them, where `here` is not "", what it comes from. */
void say_code(FILE *to, uint64_t code, const char *here);

/* What the screen can tell about a refused file beyond its code; "" where that is nothing. */
enum { ABOUT_BYTES = 256 };
void about_file(const struct entry *e, char to[ABOUT_BYTES]);

#endif
