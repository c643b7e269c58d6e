/* Text: what comes from files and names, made fit to be shown, and sentences put into lines. */
#ifndef TEXT_H
#define TEXT_H

#include <stddef.h>
#include <stdio.h>

enum { LINE_COLUMNS = 79 };

/* Puts '?' in place of every byte that is no part of a visible character in UTF-8, so that no file can move the cursor, colour the
 * screen or turn the writing round. */
void make_visible(char *text);

/* A copy that is visible; the caller frees it. Ends the program where there is no memory. */
char *visible_copy(const char *text);

/* Characters, not bytes. */
size_t characters(const char *text);

/* Adds to a text in a place of `room` bytes; one that does not fit ends in "...". */
#if defined(__GNUC__)
__attribute__((format(printf, 3, 4)))
#endif
void add_text(char *to, size_t room, const char *format, ...);

/* Writes a text in lines of up to LINE_COLUMNS: the first goes on at column `at`, the others begin at column `indent`. */
void put_lines(FILE *to, size_t at, size_t indent, const char *text);

/* The singular with 1, the plural with any other number. */
const char *plural(unsigned long long count, const char *one, const char *many);

/* Memory that is there, or the end of the program. */
void *need_memory(void *memory);

#endif
