/*
 * The questions for which the rules name a form, in plain C once more and in that form. Those that end in a search for the normal
 * form: loops over pairs of buckets, the inner one left by label at the first proof that the candidate is useless; the route takes
 * its curve from hop to hop that way. And read: a reader that holds the file and a bit position, and takes one field after the
 * other. They tell what of a ratio is owed to the form, and what to the compiler. Answers and refusals are those of the functions
 * of the same name in duchrelin.h.
 */
#ifndef NAMED_H
#define NAMED_H

#include "duchrelin.h"

duchrelin_answer named_normalise(const uint64_t *raw, size_t raw_numbers, uint64_t *out, size_t out_numbers);
duchrelin_answer named_lower(const uint64_t *f, size_t f_numbers, const uint64_t *g, size_t g_numbers,
                             uint64_t *out, size_t out_numbers);
duchrelin_answer named_shape(const uint64_t *curve, size_t curve_numbers, uint64_t rate, uint64_t frame,
                             uint64_t *out, size_t out_numbers);
duchrelin_answer named_behind(const uint64_t *curve, size_t curve_numbers, uint64_t kind, uint64_t rate, uint64_t latency,
                              uint64_t *out, size_t out_numbers);
duchrelin_profile named_read(const uint8_t *file, size_t file_bytes, uint64_t *out, size_t out_numbers);
duchrelin_written named_route(const uint8_t *input, size_t input_bytes, uint8_t *text, size_t text_bytes);

#endif
