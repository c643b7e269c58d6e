/* One way to answer the questions of duchrelin.h. A function that this way does not have is NULL. */
#ifndef LIBRARY_H
#define LIBRARY_H

#include "duchrelin.h"

struct library {
    duchrelin_answer (*normalise)(const uint64_t *, size_t, uint64_t *, size_t);
    duchrelin_figure (*value)(const uint64_t *, size_t, uint64_t);
    duchrelin_figure (*burst)(const uint64_t *, size_t);
    duchrelin_answer (*lower)(const uint64_t *, size_t, const uint64_t *, size_t, uint64_t *, size_t);
    duchrelin_answer (*sum)(const uint64_t *, size_t, const uint64_t *, size_t, uint64_t *, size_t);
    duchrelin_answer (*shape)(const uint64_t *, size_t, uint64_t, uint64_t, uint64_t *, size_t);
    duchrelin_server (*join)(uint64_t, uint64_t, uint64_t, uint64_t, uint64_t, uint64_t);
    duchrelin_answer (*behind)(const uint64_t *, size_t, uint64_t, uint64_t, uint64_t, uint64_t *, size_t);
    duchrelin_figure (*backlog)(const uint64_t *, size_t, uint64_t, uint64_t, uint64_t);
    duchrelin_figure (*delay)(const uint64_t *, size_t, uint64_t, uint64_t, uint64_t);
    duchrelin_server (*residual)(uint64_t, uint64_t, uint64_t, const uint64_t *, size_t);
    duchrelin_profile (*read)(const uint8_t *, size_t, uint64_t *, size_t);
    duchrelin_written (*write_curve)(uint64_t, const uint64_t *, size_t, uint8_t *, size_t);
    duchrelin_written (*write_server)(uint64_t, uint64_t, uint64_t, uint64_t, uint8_t *, size_t);
    duchrelin_written (*route)(const uint8_t *, size_t, uint8_t *, size_t);
};

extern const struct library archive_library;
extern const struct library plain_library;
extern const struct library named_library;

/* Functions that look at nothing and answer zeros: what a call costs by itself. */
extern const struct library idle_library;

#endif
