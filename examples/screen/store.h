/* The store: a folder of profiles, each a file NAME.profile, with the texts that say who uploaded them. */
#ifndef STORE_H
#define STORE_H

#include "ask.h"
#include "uploads.h"

struct store {
    char *path; /* visible */
    int folder;
    struct uploads uploads;
};

/* A profile of the store as it was found. */
struct entry {
    char *name;             /* visible */
    int error;              /* not 0: the file could not be read, and this says why */
    size_t bytes;           /* of the file, */
    int too_long;           /* or it has more than any profile */
    uint8_t first;          /* its first byte, 0 where there is none: four bits of edition, four of kind */
    uint64_t code;          /* the library's word on the file */
    struct profile profile; /* with code 0: what it holds */
    struct origin origin;
};

/* The names of a store's profiles, sorted. */
struct names {
    char **all;
    size_t count;
};

/* Opens a folder as a store; complains and answers FAILED where it cannot be read. */
int store_open(struct store *s, const char *folder);
void store_close(struct store *s);

/* All names; complains and answers FAILED where the folder cannot be read. */
int store_names(const struct store *s, struct names *n);
void names_free(struct names *n);

/* Loads one profile by its name. */
void entry_load(struct entry *e, const struct store *s, const char *name);
void entry_free(struct entry *e);

/* Complains of a profile that could not be read at all, and answers FAILED; ANSWERED for any other, refused ones too. */
int entry_check(const struct entry *e, const struct store *s);

#endif
