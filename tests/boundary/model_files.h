/* Gravity field files in plain C, written from the rules alone: what the run of files holds the archive to. A decimal is its digits, taken as they stand. */
#ifndef MODEL_FILES_H
#define MODEL_FILES_H

#include <inttypes.h>
#include <stdio.h>
#include <string.h>
#include "model_field.h"

/* ---- writing */

#define MODEL_LINE 54

static size_t model_file_bytes(uint32_t n) { return MODEL_LINE * (9 + model_size(n)); }

/* a line of the text, its line feed with it; answers where the next one stands */
static uint8_t *model_put(uint8_t *at, const char *line)
{
    memcpy(at, line, MODEL_LINE - 1);
    at[MODEL_LINE - 1] = '\n';
    return at + MODEL_LINE;
}

static uint8_t *model_put_entry(uint8_t *at, const char *keyword, const char *value)
{
    char line[MODEL_LINE];
    snprintf(line, sizeof line, "%s%*s", keyword, (int)(MODEL_LINE - 1 - strlen(keyword)), value);
    return model_put(at, line);
}

static uint8_t *model_put_header(uint8_t *at, uint32_t n, uint64_t constant, uint64_t radius, uint32_t system)
{
    static const char *systems[3] = {"tide_free", "zero_tide", "mean_tide"};
    char in_m3s2[24], in_metres[24], degree[8];
    snprintf(in_m3s2, sizeof in_m3s2, "%" PRIu64, constant);
    snprintf(in_metres, sizeof in_metres, "%" PRIu64 ".%03" PRIu64, radius / 1000, radius % 1000);
    snprintf(degree, sizeof degree, "%u", (unsigned)n % 100);
    at = model_put_entry(at, "product_type", "gravity_field");
    at = model_put_entry(at, "modelname", "surfgimlet");
    at = model_put_entry(at, "earth_gravity_constant", in_m3s2);
    at = model_put_entry(at, "radius", in_metres);
    at = model_put_entry(at, "max_degree", degree);
    at = model_put_entry(at, "errors", "no");
    at = model_put_entry(at, "norm", "fully_normalized");
    at = model_put_entry(at, "tide_system", systems[system]);
    return model_put(at, "end_of_head =========================================");
}

/* a count with 15 decimals */
static void model_coefficient(int64_t count, char out[24])
{
    const uint64_t one = UINT64_C(1000000000000000), size = count < 0 ? (uint64_t)-count : (uint64_t)count;
    snprintf(out, 24, "%s%u.%015" PRIu64, count < 0 ? "-" : "", (unsigned)(size / one) % 10000, size % one);
}

static uint32_t model_write_field(uint32_t n, const int64_t *c, size_t c_length, const int64_t *s, size_t s_length, uint64_t constant,
                                  uint64_t radius, uint32_t system, uint8_t *out, size_t out_length, size_t *written)
{
    uint32_t refusal;
    if (system > 2) return 100;
    if ((refusal = model_field(n, c, c_length, s, s_length))) return refusal;
    if (out_length < model_file_bytes(n)) return 21;
    out = model_put_header(out, n, constant, radius, system);
    for (unsigned l = 0; l <= n; l++)
        for (unsigned m = 0; m <= l; m++) {
            char line[80], in_c[24], in_s[24];
            model_coefficient(c[model_place(l, m)], in_c);
            model_coefficient(s[model_place(l, m)], in_s);
            snprintf(line, sizeof line, "gfc%3u%3u%22s%22s", l, m, in_c, in_s);
            out = model_put(out, line);
        }
    *written = model_file_bytes(n);
    return 0;
}

#endif
