/*
 * The whole C surface of Duchrelin once more, in plain C and with the fastest way that we know for each question. It is the
 * yardstick that the proved library is timed against. Each function takes what the function of the same name in duchrelin.h
 * takes, and gives the same answers and the same refusals.
 */
#ifndef PLAIN_H
#define PLAIN_H

#include "duchrelin.h"

duchrelin_answer plain_normalise(const uint64_t *raw, size_t raw_numbers, uint64_t *out, size_t out_numbers);
duchrelin_figure plain_value(const uint64_t *curve, size_t curve_numbers, uint64_t tick);
duchrelin_figure plain_burst(const uint64_t *curve, size_t curve_numbers);
duchrelin_answer plain_lower(const uint64_t *f, size_t f_numbers, const uint64_t *g, size_t g_numbers,
                             uint64_t *out, size_t out_numbers);
duchrelin_answer plain_sum(const uint64_t *f, size_t f_numbers, const uint64_t *g, size_t g_numbers,
                           uint64_t *out, size_t out_numbers);
duchrelin_answer plain_shape(const uint64_t *curve, size_t curve_numbers, uint64_t rate, uint64_t frame,
                             uint64_t *out, size_t out_numbers);
duchrelin_server plain_join(uint64_t kind, uint64_t rate, uint64_t latency,
                            uint64_t next_kind, uint64_t next_rate, uint64_t next_latency);
duchrelin_answer plain_behind(const uint64_t *curve, size_t curve_numbers, uint64_t kind, uint64_t rate, uint64_t latency,
                              uint64_t *out, size_t out_numbers);
duchrelin_figure plain_backlog(const uint64_t *curve, size_t curve_numbers, uint64_t kind, uint64_t rate, uint64_t latency);
duchrelin_figure plain_delay(const uint64_t *curve, size_t curve_numbers, uint64_t kind, uint64_t rate, uint64_t latency);
duchrelin_server plain_residual(uint64_t kind, uint64_t rate, uint64_t latency, const uint64_t *cross, size_t cross_numbers);
duchrelin_profile plain_read(const uint8_t *file, size_t file_bytes, uint64_t *out, size_t out_numbers);
duchrelin_written plain_write_curve(uint64_t edition, const uint64_t *curve, size_t curve_numbers,
                                    uint8_t *buffer, size_t buffer_bytes);
duchrelin_written plain_write_server(uint64_t edition, uint64_t kind, uint64_t rate, uint64_t latency,
                                     uint8_t *buffer, size_t buffer_bytes);
duchrelin_written plain_route(const uint8_t *input, size_t input_bytes, uint8_t *text, size_t text_bytes);

#endif
