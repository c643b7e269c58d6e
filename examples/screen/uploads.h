/*
 * Who uploaded what. A store's folder has two texts beside its profiles, in which a line that begins with '#' is a remark:
 *   uploads.txt   name | what it is | uploaded by
 *   authors.txt   an author that is known, one a line
 */
#ifndef UPLOADS_H
#define UPLOADS_H

#include <stddef.h>

enum standing {
    KNOWN,
    NOT_KNOWN,
    NOT_RECORDED,  /* uploads.txt does not name the profile */
    RECORDED_TWICE /* uploads.txt names it more than once, so its author is unclear */
};

/* What is known about a profile; the texts are visible, and "" where nothing is recorded. */
struct origin {
    enum standing standing;
    const char *what, *author;
};

struct upload {
    const char *name, *what, *author;
};

struct uploads {
    char *uploads_text, *authors_text;
    struct upload *uploads;
    size_t upload_count;
    const char **authors;
    size_t author_count;
};

/* Reads both texts of a folder. One that is missing or cannot be used is complained of and taken as empty: then nobody is known. */
void uploads_read(struct uploads *u, int folder);
void uploads_free(struct uploads *u);

/* What the texts say about a profile. */
struct origin origin_of(const struct uploads *u, const char *name);

/* The same in words for a list: "uploaded by Ilse Marchetti (known)". The caller frees it. */
char *origin_words(struct origin o);

#endif
