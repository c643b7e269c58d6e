#include "library.h"

#include "named.h"
#include "plain.h"

const struct library archive_library = {
    duchrelin_normalise, duchrelin_value, duchrelin_burst, duchrelin_lower, duchrelin_sum, duchrelin_shape, duchrelin_join,
    duchrelin_behind, duchrelin_backlog, duchrelin_delay, duchrelin_residual, duchrelin_read, duchrelin_write_curve,
    duchrelin_write_server, duchrelin_route,
};

const struct library plain_library = {
    plain_normalise, plain_value, plain_burst, plain_lower, plain_sum, plain_shape, plain_join, plain_behind, plain_backlog,
    plain_delay, plain_residual, plain_read, plain_write_curve, plain_write_server, plain_route,
};

const struct library named_library = {
    .normalise = named_normalise, .lower = named_lower, .shape = named_shape, .behind = named_behind, .read = named_read,
    .route = named_route,
};

static duchrelin_answer idle_normalise(const uint64_t *raw, size_t raw_numbers, uint64_t *out, size_t out_numbers)
{
    (void)raw, (void)raw_numbers, (void)out, (void)out_numbers;
    return (duchrelin_answer){ 0 };
}

static duchrelin_figure idle_value(const uint64_t *curve, size_t curve_numbers, uint64_t tick)
{
    (void)curve, (void)curve_numbers, (void)tick;
    return (duchrelin_figure){ 0 };
}

static duchrelin_figure idle_burst(const uint64_t *curve, size_t curve_numbers)
{
    (void)curve, (void)curve_numbers;
    return (duchrelin_figure){ 0 };
}

static duchrelin_answer idle_lower(const uint64_t *f, size_t f_numbers, const uint64_t *g, size_t g_numbers,
                                   uint64_t *out, size_t out_numbers)
{
    (void)f, (void)f_numbers, (void)g, (void)g_numbers, (void)out, (void)out_numbers;
    return (duchrelin_answer){ 0 };
}

static duchrelin_answer idle_shape(const uint64_t *curve, size_t curve_numbers, uint64_t rate, uint64_t frame,
                                   uint64_t *out, size_t out_numbers)
{
    (void)curve, (void)curve_numbers, (void)rate, (void)frame, (void)out, (void)out_numbers;
    return (duchrelin_answer){ 0 };
}

static duchrelin_server idle_join(uint64_t kind, uint64_t rate, uint64_t latency,
                                  uint64_t next_kind, uint64_t next_rate, uint64_t next_latency)
{
    (void)kind, (void)rate, (void)latency, (void)next_kind, (void)next_rate, (void)next_latency;
    return (duchrelin_server){ 0 };
}

static duchrelin_answer idle_behind(const uint64_t *curve, size_t curve_numbers, uint64_t kind, uint64_t rate, uint64_t latency,
                                    uint64_t *out, size_t out_numbers)
{
    (void)curve, (void)curve_numbers, (void)kind, (void)rate, (void)latency, (void)out, (void)out_numbers;
    return (duchrelin_answer){ 0 };
}

static duchrelin_figure idle_backlog(const uint64_t *curve, size_t curve_numbers, uint64_t kind, uint64_t rate, uint64_t latency)
{
    (void)curve, (void)curve_numbers, (void)kind, (void)rate, (void)latency;
    return (duchrelin_figure){ 0 };
}

static duchrelin_server idle_residual(uint64_t kind, uint64_t rate, uint64_t latency, const uint64_t *cross, size_t cross_numbers)
{
    (void)kind, (void)rate, (void)latency, (void)cross, (void)cross_numbers;
    return (duchrelin_server){ 0 };
}

static duchrelin_profile idle_read(const uint8_t *file, size_t file_bytes, uint64_t *out, size_t out_numbers)
{
    (void)file, (void)file_bytes, (void)out, (void)out_numbers;
    return (duchrelin_profile){ 0 };
}

static duchrelin_written idle_write_curve(uint64_t edition, const uint64_t *curve, size_t curve_numbers,
                                          uint8_t *buffer, size_t buffer_bytes)
{
    (void)edition, (void)curve, (void)curve_numbers, (void)buffer, (void)buffer_bytes;
    return (duchrelin_written){ 0 };
}

static duchrelin_written idle_write_server(uint64_t edition, uint64_t kind, uint64_t rate, uint64_t latency,
                                           uint8_t *buffer, size_t buffer_bytes)
{
    (void)edition, (void)kind, (void)rate, (void)latency, (void)buffer, (void)buffer_bytes;
    return (duchrelin_written){ 0 };
}

static duchrelin_written idle_route(const uint8_t *input, size_t input_bytes, uint8_t *text, size_t text_bytes)
{
    (void)input, (void)input_bytes, (void)text, (void)text_bytes;
    return (duchrelin_written){ 0 };
}

const struct library idle_library = {
    idle_normalise, idle_value, idle_burst, idle_lower, idle_lower, idle_shape, idle_join, idle_behind, idle_backlog, idle_backlog,
    idle_residual, idle_read, idle_write_curve, idle_write_server, idle_route,
};
