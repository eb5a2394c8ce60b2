/* The reading of gravity field files in plain C, written from the rules alone: what the run of files holds the archive to. A number is its digits, of any
 * length, and no power of ten is formed. */
#ifndef MODEL_READING_H
#define MODEL_READING_H

#include <string.h>
#include "model_field.h"

#define MODEL_MOST_BYTES 131072
#define MODEL_MOST_ROWS (MODEL_MOST_BYTES / 12 + 1) /* the shortest is "gfc 0 0 0 0" and a line feed */

/* ---- lines and words */

typedef struct { const uint8_t *at; size_t length; } model_span;
typedef struct { model_span word[10]; size_t count; } model_row; /* words beyond the tenth are counted only */

static int model_ends_line(uint8_t b) { return b == 10 || b == 13; }
static int model_blank(uint8_t b) { return b == 32 || b == 9; }

/* the next line that has a word, taken from the rest of a text; none: 0 */
static int model_next(model_span *rest, model_row *row)
{
    row->count = 0;
    while (rest->length && !(model_ends_line(*rest->at) && row->count)) {
        model_span word = {rest->at, 0};
        while (word.length < rest->length && !model_blank(word.at[word.length]) && !model_ends_line(word.at[word.length])) word.length++;
        if (word.length) {
            if (row->count < 10) row->word[row->count] = word;
            row->count++;
        } else {
            word.length = 1; /* a blank, or the end of a line without a word */
        }
        rest->at += word.length;
        rest->length -= word.length;
    }
    return row->count > 0;
}

static int model_is(model_span word, const char *told) { return word.length == strlen(told) && !memcmp(word.at, told, word.length); }

/* ---- numbers */

static int model_digit(uint8_t b) { return b >= '0' && b <= '9'; }

/* how many bytes of it are digits, from its start */
static size_t model_digits(model_span word)
{
    size_t count = 0;
    while (count < word.length && model_digit(word.at[count])) count++;
    return count;
}

static model_span model_after(model_span word, size_t bytes)
{
    const model_span rest = {word.at + bytes, word.length - bytes};
    return rest;
}

static model_span model_without_zeros(model_span digits)
{
    while (digits.length && *digits.at == '0') digits = model_after(digits, 1);
    return digits;
}

static int model_whole(model_span word) { return word.length && model_digits(word) == word.length; }

/* whole numbers of any length: below, 0 or above 0 as the first is smaller, the same or larger */
static int model_compare(model_span one, model_span other)
{
    one = model_without_zeros(one);
    other = model_without_zeros(other);
    if (one.length != other.length) return one.length < other.length ? -1 : 1;
    return memcmp(one.at, other.at, one.length);
}

/* a whole number, or most where it is larger */
static int64_t model_at_most(model_span digits, int64_t most)
{
    int64_t value = 0;
    for (; digits.length && value <= most; digits = model_after(digits, 1)) value = 10 * value + (*digits.at - '0');
    return value < most ? value : most;
}

/* before and behind its dot, and the exponent without its sign */
typedef struct { int minus, small; model_span before, behind, exponent; } model_decimal;

/* a sign taken from a word, where it has one: whether it is a minus */
static int model_minus(model_span *word)
{
    int minus = word->length && *word->at == '-';
    if (minus || (word->length && *word->at == '+')) *word = model_after(*word, 1);
    return minus;
}

/* whether a word is a decimal, and its parts */
static int model_parts(model_span word, model_decimal *d)
{
    d->minus = model_minus(&word);
    d->before.at = word.at;
    d->before.length = model_digits(word);
    word = model_after(word, d->before.length);
    d->behind.at = word.at;
    d->behind.length = 0;
    if (word.length && *word.at == '.') {
        word = model_after(word, 1);
        d->behind.at = word.at;
        d->behind.length = model_digits(word);
        word = model_after(word, d->behind.length);
    }
    d->small = 0;
    d->exponent = model_after(word, word.length);
    if (d->before.length + d->behind.length == 0) return 0;
    if (word.length == 0) return 1;
    if (!strchr("EeDd", *word.at) || *word.at == 0) return 0;
    word = model_after(word, 1);
    d->small = model_minus(&word);
    d->exponent = word;
    return model_whole(word);
}

/* its digit at i, from its first one; zeros beyond them and before them */
static unsigned model_digit_at(const model_decimal *d, int64_t i)
{
    if (i < 0) return 0;
    if ((uint64_t)i < d->before.length) return d->before.at[i] - '0';
    i -= (int64_t)d->before.length;
    return (uint64_t)i < d->behind.length ? d->behind.at[i] - '0' : 0;
}

static int model_zero(const model_decimal *d)
{
    return !model_without_zeros(d->before).length && !model_without_zeros(d->behind).length;
}

/* a size that is 2^64 or more is beyond; how many exact halves were met, above and below zero */
typedef struct { int minus, beyond; uint64_t size; } model_count;
static long model_read_halves[2];

static void model_append(model_count *count, unsigned digit)
{
    count->beyond |= count->size > (UINT64_MAX - digit) / 10;
    count->size = 10 * count->size + digit;
}

/* counts an exact half: a five at i, and no other digit behind it */
static void model_see_half(const model_decimal *d, int64_t i)
{
    int half = model_digit_at(d, i) == 5;
    for (int64_t j = i + 1; half && j < (int64_t)(d->before.length + d->behind.length); j++) half = model_digit_at(d, j) == 0;
    model_read_halves[d->minus] += half;
}

/* the whole number nearest the decimal times 10^places, by the first digit that is cut off: five or more is a half or more, and goes away from zero */
static model_count model_nearest_count(const model_decimal *d, int places)
{
    const int64_t far = 1000000; /* more digits than a file has */
    int64_t exponent = model_at_most(d->exponent, far), cut = (int64_t)d->before.length + places + (d->small ? -exponent : exponent);
    model_count count = {d->minus, 0, 0};
    if (model_zero(d)) return count;
    for (int64_t i = 0; i < cut && !count.beyond; i++) model_append(&count, model_digit_at(d, i));
    if (count.beyond) return count;
    model_see_half(d, cut);
    if (model_digit_at(d, cut) >= 5) count.beyond = ++count.size == 0;
    return count;
}

static int64_t model_signed(model_count count) { return count.minus ? -(int64_t)count.size : (int64_t)count.size; }

/* whether a word is a decimal whose nearest count at this scale is unsigned and of 64 bits */
static int model_unsigned(model_span word, int places, uint64_t *value)
{
    model_decimal d;
    model_count count;
    if (!model_parts(word, &d)) return 0;
    count = model_nearest_count(&d, places);
    *value = count.size;
    return !count.beyond && !(count.minus && count.size);
}

/* ---- the header */

enum { PRODUCT, CONSTANT, RADIUS, DEGREE, REQUIRED, SYSTEM = REQUIRED, NORM, MODEL, ERRORS, ENTRIES };

typedef struct { model_span value[ENTRIES]; } model_header; /* of length 0 where an entry is absent */

static int model_keyword(model_span word)
{
    static const char *keywords[ENTRIES] = {"product_type", "earth_gravity_constant", "radius", "max_degree", "tide_system", "norm", "modelname", "errors"};
    int i = 0;
    if (model_is(word, "gravity_constant")) return CONSTANT;
    while (i < ENTRIES && !model_is(word, keywords[i])) i++;
    return i;
}

/* the entries up to end_of_head, which is taken from the text too; 0 where it, begin_of_head or an entry is not as it must be */
static int model_entries(model_span *rest, model_header *h)
{
    const model_header none = {{{NULL, 0}}};
    model_row row;
    int begun = 0, good = 1;
    for (*h = none; model_next(rest, &row) && !model_is(row.word[0], "end_of_head");) {
        int entry = model_keyword(row.word[0]);
        if (model_is(row.word[0], "begin_of_head")) {
            if (begun++) return 0;
            *h = none;
            good = 1;
        } else if (entry < ENTRIES) {
            good &= row.count > 1 && !h->value[entry].length;
            if (good) h->value[entry] = row.word[1];
        }
    }
    return good && row.count > 0;
}

/* whether the required entries are there, and the values are what they may be */
static int model_known(const model_header *h)
{
    for (int i = 0; i < REQUIRED; i++)
        if (!h->value[i].length) return 0;
    return model_is(h->value[PRODUCT], "gravity_field") && model_whole(h->value[DEGREE])
        && (!h->value[NORM].length || model_is(h->value[NORM], "fully_normalized"));
}

static int model_system(model_span word)
{
    return model_is(word, "tide_free") ? 0 : model_is(word, "zero_tide") ? 1 : model_is(word, "mean_tide") ? 2 : -1;
}

/* ---- the data */

typedef struct { model_span l, m; model_count c, s; } model_data;

typedef struct {
    uint32_t refusal; /* 17, 18, 19, 20 or 0; after 17 the rest tells nothing */
    model_span degree;
    uint64_t constant, radius;
    int system; /* below 0 where there is none */
    size_t count;
    model_data data[MODEL_MOST_ROWS];
} model_file;

/* whether a line of data is as it must be in a file of this degree, and what it has */
static int model_take(const model_row *row, model_span degree, model_data *data)
{
    model_decimal c, s;
    if (!model_is(row->word[0], "gfc") || (row->count != 5 && row->count != 7 && row->count != 9)) return 0;
    data->l = row->word[1];
    data->m = row->word[2];
    if (!model_whole(data->l) || !model_whole(data->m) || !model_parts(row->word[3], &c) || !model_parts(row->word[4], &s)) return 0;
    data->c = model_nearest_count(&c, 15);
    data->s = model_nearest_count(&s, 15);
    return model_compare(data->m, data->l) <= 0 && model_compare(data->l, degree) <= 0;
}

/* what 17 looks at: whether the file is well formed, and what it has */
static int model_form(const uint8_t *text, size_t length, model_file *f)
{
    model_span rest = {text, length};
    model_header h;
    model_row row;
    f->count = 0;
    if (length > MODEL_MOST_BYTES || !model_entries(&rest, &h) || !model_known(&h)) return 0;
    f->degree = h.value[DEGREE];
    f->system = model_system(h.value[SYSTEM]);
    if (!model_unsigned(h.value[CONSTANT], 0, &f->constant) || !model_unsigned(h.value[RADIUS], 3, &f->radius)) return 0;
    while (model_next(&rest, &row))
        if (!model_take(&row, f->degree, &f->data[f->count++])) return 0;
    return 1;
}

static int model_high(const model_data *data) { return model_at_most(data->l, 61) > 60; }

/* two lines of one place, of degrees up to 60 */
static int model_low_twins(const model_file *f)
{
    char seen[61 * 62 / 2] = {0};
    for (size_t i = 0; i < f->count; i++)
        if (!model_high(&f->data[i]) && seen[model_place((size_t)model_at_most(f->data[i].l, 60), (size_t)model_at_most(f->data[i].m, 60))]++) return 1;
    return 0;
}

/* the same above, where a degree may be of any length */
static int model_high_twins(const model_file *f)
{
    for (size_t j = 1; j < f->count; j++)
        for (size_t i = 0; i < j && model_high(&f->data[j]); i++)
            if (!model_compare(f->data[i].m, f->data[j].m) && !model_compare(f->data[i].l, f->data[j].l)) return 1;
    return 0;
}

static int model_beyond_range(model_count count) { return count.beyond || count.size > (uint64_t)LIMIT; }

static int model_out_of_range(const model_file *f)
{
    int64_t degree = model_at_most(f->degree, 61);
    for (size_t i = 0; i < f->count; i++)
        if (model_beyond_range(f->data[i].c) || model_beyond_range(f->data[i].s)) return 1;
    return degree < 4 || degree > 60;
}

/* ---- the calls */

static void model_read(const uint8_t *text, size_t length, model_file *f)
{
    f->refusal = 17;
    if (!model_form(text, length, f)) return;
    f->refusal = model_low_twins(f) || model_high_twins(f) ? 18 : model_out_of_range(f) ? 19 : f->system < 0 ? 20 : 0;
}

static uint32_t model_degree(const model_file *f) { return (uint32_t)model_at_most(f->degree, 61); }

static uint32_t model_file_head(const model_file *f, uint32_t *degree, uint64_t *constant, uint64_t *radius, uint32_t *system)
{
    if (f->refusal) return f->refusal;
    *degree = model_degree(f);
    *constant = f->constant;
    *radius = f->radius;
    *system = (uint32_t)f->system;
    return 0;
}

static uint32_t model_read_field(const model_file *f, int64_t *c, size_t c_length, int64_t *s, size_t s_length, uint32_t *degree, uint64_t *constant,
                                 uint64_t *radius, uint32_t *system)
{
    if (f->refusal) return f->refusal;
    if (c_length != model_size(model_degree(f)) || s_length != c_length) return 1;
    for (size_t i = 0; i < c_length; i++) c[i] = s[i] = 0;
    for (size_t i = 0; i < f->count; i++) {
        size_t at = model_place((size_t)model_at_most(f->data[i].l, 60), (size_t)model_at_most(f->data[i].m, 60));
        c[at] = model_signed(f->data[i].c);
        s[at] = model_signed(f->data[i].s);
    }
    return model_file_head(f, degree, constant, radius, system);
}

#endif
