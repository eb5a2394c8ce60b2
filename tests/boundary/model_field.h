/* A field's shape and range, for the models of the calls. */
#ifndef MODEL_FIELD_H
#define MODEL_FIELD_H

#include <stddef.h>
#include <stdint.h>

#define LIMIT (INT64_C(1) << 60)

static size_t model_size(uint32_t n) { return (size_t)(n + 1) * (n + 2) / 2; }
static size_t model_place(size_t n, size_t m) { return n * (n + 1) / 2 + m; }

static int model_in_range(const int64_t *l, size_t length)
{
    for (size_t i = 0; i < length; i++)
        if (l[i] < -LIMIT || l[i] > LIMIT) return 0;
    return 1;
}

static uint32_t model_field(uint32_t n, const int64_t *c, size_t c_length, const int64_t *s, size_t s_length)
{
    if (n < 4 || n > 60 || c_length != model_size(n) || s_length != model_size(n)) return 1;
    return model_in_range(c, c_length) && model_in_range(s, s_length) ? 0 : 2;
}

#endif
