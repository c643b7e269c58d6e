/* The store in a list. */
#ifndef LIST_H
#define LIST_H

#include "store.h"

/* All profiles: traffic, then ports, then devices that only delay, then what is refused. REFUSED where a file is, FAILED where one
 * cannot be read. */
int list_store(const struct store *s);

/* Some profiles by their names, in full. */
int show_profiles(const struct store *s, char **names, size_t count);

#endif
