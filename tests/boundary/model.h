/* The unit's calls in plain C, written from the description alone: what the fuzz run holds the archive to.
 * Whole numbers throughout, doubles only in step one, each operation rounded once (compile with -ffp-contract=off). */
#ifndef MODEL_H
#define MODEL_H

#include <math.h>
#include <stdlib.h>
#include <string.h>
#include "model_field.h"
#include "surfgimlet.h"

/* what is rounded; and how many exact halves were met of each, above and below zero */
enum { OF_STEP_ONE, OF_STEP_TWO, OF_OWN_LINES, OF_POLE, OF_FACTORS, OF_PLACES, ROUNDINGS };
static long model_halves[ROUNDINGS][2];

/* x/n to the nearest whole number, an exact half away from zero: C divides toward zero, and what is left has the sign of x */
static int64_t model_nearest(int64_t x, int64_t n, int what)
{
    int64_t q = x / n, r = x % n;
    model_halves[what][x < 0] += 2 * r == n || 2 * r == -n;
    return q + (2 * r >= n) - (2 * r <= -n);
}

/* ---- Doodson numbers and the printed lines */

static const struct { uint32_t number; int32_t one, two; } model_lines[49] = {
    {135645, -1, -1}, {135655, -7, -7}, {137455, -1, -1}, {145545, -12, -13}, {145555, -66, -67}, {153655, 1, 1},
    {155455, 4, 4}, {155655, 13, 13}, {155665, 2, 3}, {157455, 3, 3}, {162556, -19, -19}, {163545, 5, 5},
    {163555, -433, -432}, {164556, 20, 20}, {165545, -88, -88}, {165555, 4720, 4710}, {165565, 683, 682},
    {165575, -16, -16}, {166554, -208, -204}, {167555, -50, -50}, {173655, -5, -5}, {175455, -21, -21},
    {175465, -4, -4}, {183555, -2, -2}, {185555, -7, -6}, {185565, -4, -4},
    {55565, 166, -67}, {55575, -1, 1}, {56554, -12, 8}, {57555, -55, 43}, {57565, 1, -1}, {58554, -3, 2},
    {63655, -3, 7}, {65445, 1, -2}, {65455, -12, 37}, {65465, 1, -2}, {65655, 1, -2}, {73555, 0, 6}, {75355, 0, 3},
    {75555, 6, 63}, {75565, 2, 26}, {75575, 0, 2}, {83655, 1, 2}, {85455, 4, 11}, {85465, 2, 5}, {93555, 1, 2},
    {95355, 1, 1}, {245655, -3, -3}, {255555, -12, -12}};

static uint32_t model_multipliers_of(uint32_t number, int32_t m[6])
{
    if (number > 999999) return 10;
    for (int i = 5; i >= 0; i--, number /= 10) m[i] = (int32_t)(number % 10) - (i ? 5 : 0);
    return 0;
}

static uint32_t model_number_of(const int32_t m[6], uint32_t *number)
{
    uint32_t digits = 0;
    if (m[0] < 0 || m[0] > 9) return 10;
    for (int i = 1; i < 6; i++)
        if (m[i] < -5 || m[i] > 4) return 10;
    for (int i = 0; i < 6; i++) digits = digits * 10 + (uint32_t)(m[i] + (i ? 5 : 0));
    *number = digits;
    return 0;
}

static uint32_t model_find_line(uint32_t number, size_t *index, int64_t *first, int64_t *second)
{
    if (number > 999999) return 10;
    for (size_t i = 0; i < 49; i++)
        if (model_lines[i].number == number) {
            *index = i;
            *first = model_lines[i].one;
            *second = model_lines[i].two;
            return 0;
        }
    return 11;
}

/* ---- phase, sine, cosine */

static uint32_t model_phase(const int32_t m[6], surfgimlet_phases b)
{
    return (uint32_t)m[0] * b.tau + (uint32_t)m[1] * b.s + (uint32_t)m[2] * b.h + (uint32_t)m[3] * b.p
        + (uint32_t)m[4] * b.np + (uint32_t)m[5] * b.ps;
}

#define STEP(h, d) (h) = (UINT64_C(1) << 32) - (y * (h) + (UINT64_C(d) << 31)) / (UINT64_C(d) << 32)

static int64_t model_sine(uint32_t phase)
{
    uint32_t e = phase >> 29, b = phase & 0x1fffffff;
    uint64_t a = e & 1 ? (UINT64_C(1) << 29) - b : b;
    uint64_t x = (a * UINT64_C(13493037705) + (UINT64_C(1) << 30)) >> 31;
    uint64_t y = (x * x + (UINT64_C(1) << 31)) >> 32;
    uint64_t h = UINT64_C(1) << 32;
    int64_t value;
    if ((e & 3) == 1 || (e & 3) == 2) {
        STEP(h, 132); STEP(h, 90); STEP(h, 56); STEP(h, 30); STEP(h, 12); STEP(h, 2);
        value = (int64_t)((h + 2) / 4);
    } else {
        STEP(h, 110); STEP(h, 72); STEP(h, 42); STEP(h, 20); STEP(h, 6);
        value = (int64_t)((((x * h + (UINT64_C(1) << 31)) >> 32) + 2) / 4);
    }
    return e < 4 ? value : -value;
}

static int64_t model_cosine(uint32_t phase) { return model_sine(phase + (UINT32_C(1) << 30)); }

/* ---- the hour */

/* the lines that have an argument, worked out afresh: all of them where it is 6 */
static void model_renew(surfgimlet_hour *hour, uint32_t argument)
{
    for (int i = 0; i < 49; i++) {
        int32_t m[6] = {0};
        uint32_t phase;
        model_multipliers_of(model_lines[i].number, m);
        if (argument < 6 && m[argument] == 0) continue;
        phase = model_phase(m, hour->phases);
        hour->cosines[i] = (int32_t)model_cosine(phase);
        hour->sines[i] = (int32_t)model_sine(phase);
    }
}

static surfgimlet_hour model_set_hour(surfgimlet_phases b)
{
    surfgimlet_hour hour;
    hour.phases = b;
    model_renew(&hour, 6);
    return hour;
}

static surfgimlet_hour model_start_hour(void)
{
    const surfgimlet_phases zero = {0, 0, 0, 0, 0, 0};
    return model_set_hour(zero);
}

static surfgimlet_hour model_move_hour(surfgimlet_hour hour, uint32_t argument, int32_t amount, uint32_t *answer)
{
    uint32_t *phase[6] = {&hour.phases.tau, &hour.phases.s, &hour.phases.h, &hour.phases.p, &hour.phases.np, &hour.phases.ps};
    *answer = argument > 5 ? 100 : 0;
    if (*answer) return hour;
    *phase[argument] += (uint32_t)amount;
    model_renew(&hour, argument);
    return hour;
}

/* ---- lines, printed or an operator's own */

/* five sums of counts times 2^30 */
typedef struct { int64_t c20, c21, s21, c22, s22; } model_sums;

/* a line of long period (0), diurnal (1) or semidiurnal (2), its amplitudes in 100 counts; its cosine and sine any 32-bit values */
static void model_line(model_sums *sums, int band, int64_t ip, int64_t op, int64_t cosine, int64_t sine)
{
    cosine *= 100;
    sine *= 100;
    if (band == 0) {
        sums->c20 += ip * cosine - op * sine;
    } else if (band == 1) {
        sums->c21 += ip * sine + op * cosine;
        sums->s21 += ip * cosine - op * sine;
    } else {
        sums->c22 += ip * cosine - op * sine;
        sums->s22 += -ip * sine - op * cosine;
    }
}

/* each sum is rounded once; what: of which lines they are */
static void model_add_five(int64_t *c, int64_t *s, model_sums sums, int what)
{
    c[model_place(2, 0)] += model_nearest(sums.c20, INT64_C(1) << 30, what);
    c[model_place(2, 1)] += model_nearest(sums.c21, INT64_C(1) << 30, what);
    s[model_place(2, 1)] += model_nearest(sums.s21, INT64_C(1) << 30, what);
    c[model_place(2, 2)] += model_nearest(sums.c22, INT64_C(1) << 30, what);
    s[model_place(2, 2)] += model_nearest(sums.s22, INT64_C(1) << 30, what);
}

/* ---- lines of an operator's own */

static int model_record(const surfgimlet_own_line *l)
{
    const int32_t others[5] = {l->s, l->h, l->p, l->np, l->ps};
    for (int i = 0; i < 5; i++)
        if (others[i] < -13 || others[i] > 13) return 0;
    return (l->tau == 0 || l->tau == 1 || l->tau == 2) && l->ip >= -100000 && l->ip <= 100000 && l->op >= -100000 && l->op <= 100000;
}

static uint32_t model_own_lines(uint32_t n, int64_t *c, size_t c_length, int64_t *s, size_t s_length,
                                const surfgimlet_own_line *lines, size_t count, surfgimlet_phases b)
{
    model_sums sums = {0, 0, 0, 0, 0};
    uint32_t refusal = model_field(n, c, c_length, s, s_length);
    if (refusal) return refusal;
    if (count > 64) return 12;
    for (size_t i = 0; i < count; i++)
        if (!model_record(&lines[i])) return 13;
    for (size_t i = 0; i < count; i++) {
        const surfgimlet_own_line *l = &lines[i];
        const int32_t m[6] = {l->tau, l->s, l->h, l->p, l->np, l->ps};
        uint32_t phase = model_phase(m, b);
        model_line(&sums, l->tau, l->ip, l->op, model_cosine(phase), model_sine(phase));
    }
    model_add_five(c, s, sums, OF_OWN_LINES);
    return 0;
}

/* ---- solid pole tide */

static uint32_t model_pole_tide(uint32_t n, int64_t *c, size_t c_length, int64_t *s, size_t s_length, int64_t xp, int64_t yp, uint32_t love)
{
    uint32_t refusal;
    if (love > 1) return 100;
    if ((refusal = model_field(n, c, c_length, s, s_length))) return refusal;
    if (xp < -1000000 || xp > 1000000 || yp < -1000000 || yp > 1000000) return 15;
    c[model_place(2, 1)] += love ? model_nearest(-1348 * (10000 * xp + 112 * yp), 10000000, OF_POLE) : model_nearest(-1290 * xp, 1000, OF_POLE);
    s[model_place(2, 1)] += love ? model_nearest(1348 * (10000 * yp - 112 * xp), 10000000, OF_POLE) : model_nearest(1290 * yp, 1000, OF_POLE);
    return 0;
}

/* ---- permanent systems */

static int64_t model_permanent(uint32_t love) { return love ? -4200675 : -4108147; }

static int64_t model_above_tide_free(uint32_t system, uint32_t love)
{
    return system == 0 ? 0 : system == 1 ? model_permanent(love) : model_permanent(love) - 13914129;
}

static uint32_t model_move_c20(int64_t c20, uint32_t from, uint32_t to, uint32_t love, int64_t *moved)
{
    if (from > 2 || to > 2 || love > 1) return 100;
    if (c20 < -LIMIT || c20 > LIMIT) return 2;
    *moved = c20 - model_above_tide_free(from, love) + model_above_tide_free(to, love);
    return 0;
}

/* ---- solid tide, step one */

typedef struct { double u, v, w; } model_direction;

static uint32_t model_see(surfgimlet_body b, model_direction *d)
{
    double excess;
    if (!isfinite(b.ratio) || !isfinite(b.x) || !isfinite(b.y) || !isfinite(b.z) || !isfinite(b.r)) return 3;
    if (!(b.r >= 1e8 && b.r <= 1e12 && b.ratio > 0 && b.ratio <= 1e6)) return 4;
    d->u = b.kind ? b.x : b.x / b.r;
    d->v = b.kind ? b.y : b.y / b.r;
    d->w = b.kind ? b.z : b.z / b.r;
    excess = ((d->u * d->u + d->v * d->v) + d->w * d->w) - 1.0;
    return excess >= -0x1p-40 && excess <= 0x1p-40 ? 0 : 5;
}

/* P and Q of the seven orders of degrees 2 and 3, one body's */
static void model_body(surfgimlet_body b, model_direction d, double p[7], double q[7])
{
    static const double root[7] = {2.236067977499789696409, 1.290994448735805628393, 0.645497224367902814196,
        2.645751311064590590501, 1.080123449734643371827, 0.341565025531986612774, 0.139443337755679257996};
    double e[4] = {1.0}, f[4] = {0.0};
    double w = d.w, w2 = w * w, t = 6378136.3 / b.r, t3 = (t * t) * t, t4 = t3 * t;
    double l[7];
    l[0] = (3 * w2 - 1) / 2; l[1] = 3 * w; l[2] = 3;
    l[3] = ((5 * w2 - 3) * w) / 2; l[4] = (15 * w2 - 3) / 2; l[5] = 15 * w; l[6] = 15;
    for (int m = 1; m < 4; m++) {
        e[m] = d.u * e[m - 1] - d.v * f[m - 1];
        f[m] = d.u * f[m - 1] + d.v * e[m - 1];
    }
    for (int i = 0; i < 7; i++) {
        int m = i < 3 ? i : i - 3;
        double scale = (root[i] * l[i]) * (b.ratio * (i < 3 ? t3 : t4));
        p[i] = scale * e[m];
        q[i] = scale * f[m];
    }
}

/* the same of a float: C's round takes halves away from zero too */
static int64_t model_count(double x)
{
    model_halves[OF_STEP_ONE][x < 0] += fabs(x - trunc(x)) == 0.5;
    return (int64_t)round(x);
}

/* dC and dS times 10^15 of the ten places, degrees 2, 3 and 4 in turn; or the refusal of a body */
static uint32_t model_products(surfgimlet_body moon, surfgimlet_body sun, uint32_t love, double dc[10], double ds[10])
{
    static const double real[2][7] = {{0.29525, 0.29470, 0.29801, 0.093, 0.093, 0.093, 0.094},
                                      {0.30190, 0.29830, 0.30102, 0.093, 0.093, 0.093, 0.094}};
    static const double imaginary[2][7] = {{0}, {0, -0.00144, -0.00130}};
    static const double plus[2][3] = {{-0.00087, -0.00079, -0.00057}, {-0.00089, -0.00080, -0.00057}};
    double mp[7], mq[7], sp[7], sq[7];
    model_direction m, b;
    uint32_t refusal;
    if ((refusal = model_see(moon, &m))) return refusal;
    if ((refusal = model_see(sun, &b))) return refusal;
    model_body(moon, m, mp, mq);
    model_body(sun, b, sp, sq);
    for (int i = 0; i < 7; i++) {
        double p = (mp[i] + sp[i]) / (i < 3 ? 5 : 7), q = (mq[i] + sq[i]) / (i < 3 ? 5 : 7);
        double k = real[love][i], l = imaginary[love][i];
        dc[i] = (k * p + l * q) * 1e15;
        ds[i] = (k * q - l * p) * 1e15;
        if (i < 3) {
            dc[7 + i] = (plus[love][i] * p) * 1e15;
            ds[7 + i] = (plus[love][i] * q) * 1e15;
        }
    }
    return 0;
}

/* step one's counts at the ten places, without the permanent part; or its refusal */
static uint32_t model_step_one(int64_t *c, int64_t *s, surfgimlet_body moon, surfgimlet_body sun, uint32_t love)
{
    double dc[10], ds[10];
    uint32_t refusal = model_products(moon, sun, love, dc, ds);
    if (refusal) return refusal;
    for (int i = 0; i < 10; i++)
        if (!(dc[i] > -0x1p52 && dc[i] < 0x1p52 && ds[i] > -0x1p52 && ds[i] < 0x1p52)) return 6;
    for (int i = 0; i < 10; i++) {
        c[3 + i] += model_count(dc[i]);
        if (i != 0 && i != 3 && i != 7) s[3 + i] += model_count(ds[i]);
    }
    c[3] -= model_permanent(love);
    return 0;
}

/* ---- solid tide, step two */

/* the lines that have an amplitude of at least ten in the anelastic model */
static uint64_t model_major_lines(void)
{
    uint64_t chosen = 0, bit = 1;
    for (int i = 0; i < 49; i++, bit *= 2) {
        int32_t one = abs(model_lines[i].one), two = abs(model_lines[i].two);
        if (i < 26 ? two >= 10 : i < 47 ? one >= 10 || two >= 10 : one >= 10) chosen += bit;
    }
    return chosen;
}

/* step two's counts at the five places, over what the hour holds; answers how many lines are named */
static uint32_t model_step_two(int64_t *c, int64_t *s, uint32_t love, const surfgimlet_hour *hour, uint64_t selection)
{
    model_sums sums = {0, 0, 0, 0, 0};
    uint32_t count = 0;
    for (int i = 0; i < 49; i++) {
        int64_t one = model_lines[i].one, two = model_lines[i].two, cosine = hour->cosines[i], sine = hour->sines[i];
        if (!(selection & UINT64_C(1) << i)) continue;
        count++;
        if (i < 26) model_line(&sums, 1, love ? two : one, 0, cosine, sine);
        else if (i >= 47) model_line(&sums, 2, one, 0, cosine, sine);
        else if (love) model_line(&sums, 0, one, two, cosine, sine);
    }
    model_add_five(c, s, sums, OF_STEP_TWO);
    return count;
}

/* ---- solid tide, the call: the sum of the two is added once */

static uint32_t model_solid_tide(uint32_t n, int64_t *c, size_t c_length, int64_t *s, size_t s_length, surfgimlet_body moon,
                                 surfgimlet_body sun, uint32_t love, surfgimlet_hour hour, uint64_t selection, uint32_t *lines)
{
    int64_t dc[13] = {0}, ds[13] = {0}; /* up to place (4,2) */
    uint32_t refusal;
    if (love > 1 || moon.kind > 1 || sun.kind > 1) return 100;
    if ((refusal = model_field(n, c, c_length, s, s_length))) return refusal;
    if (selection >= UINT64_C(1) << 49) return 14;
    if ((refusal = model_step_one(dc, ds, moon, sun, love))) return refusal;
    *lines = model_step_two(dc, ds, love, &hour, selection);
    for (int i = 0; i < 13; i++) {
        c[i] += dc[i];
        s[i] += ds[i];
    }
    return 0;
}

/* ---- model sheet and ocean tide */

typedef struct { size_t lines, tides, places; const uint8_t *line, *row, *place; } model_sheet;

static size_t model_half(const uint8_t *b) { return b[0] + 256u * b[1]; }

static int32_t model_word(const uint8_t *b)
{
    uint32_t bits = b[0] | (uint32_t)b[1] << 8 | (uint32_t)b[2] << 16 | (uint32_t)b[3] << 24;
    return (int32_t)bits;
}

/* where the sections stand: 7 unless all counts are in their ranges and the length is exact */
static uint32_t model_layout(const uint8_t *b, size_t length, model_sheet *t)
{
    size_t at = 2;
    if (length < at) return 7;
    t->lines = model_half(b);
    if (t->lines < 1 || t->lines > 128) return 7;
    t->line = b + at;
    at += 6 * t->lines + 2;
    if (length < at) return 7;
    t->tides = model_half(b + at - 2);
    if (t->tides < 1 || t->tides > 32) return 7;
    t->row = b + at;
    at += 4 * t->lines * t->tides + 2;
    if (length < at) return 7;
    t->places = model_half(b + at - 2);
    t->place = b + at;
    return t->places <= 90 && length == at + t->places * (2 + 16 * t->tides) ? 0 : 7;
}

/* whether every value, every row's total and the order of the places is right */
static int model_values(const model_sheet *t)
{
    size_t wide = 2 + 16 * t->tides;
    int good = 1, last = -1;
    for (size_t i = 0; i < 6 * t->lines; i++) good &= (int8_t)t->line[i] >= -13 && (int8_t)t->line[i] <= 13;
    for (size_t k = 0; k < t->tides; k++) {
        int64_t total = 0;
        for (size_t f = 0; f < t->lines; f++) {
            int64_t a = model_word(t->row + 4 * (k * t->lines + f));
            total += a < 0 ? -a : a;
        }
        good &= total <= 4000000;
    }
    for (size_t j = 0; j < t->places; j++) {
        const uint8_t *p = t->place + j * wide;
        int here = p[0] * 256 + p[1];
        int32_t in_s = 0;
        good &= p[0] >= 1 && p[0] <= 12 && p[1] <= p[0] && here > last;
        last = here;
        for (size_t k = 0; k < t->tides; k++) {
            const uint8_t *q = p + 2 + 16 * k;
            int32_t cc = model_word(q), sc = model_word(q + 4), cs = model_word(q + 8), ss = model_word(q + 12);
            good &= (cc >= -(1 << 24)) & (cc <= 1 << 24) & (sc >= -(1 << 24)) & (sc <= 1 << 24)
                & (cs >= -(1 << 24)) & (cs <= 1 << 24) & (ss >= -(1 << 24)) & (ss <= 1 << 24);
            in_s |= sc | ss;
        }
        good &= (p[1] > 0) | (in_s == 0);
    }
    return good;
}

/* whether two lines, wherever they stand, have the same six multipliers */
static int model_twins(const model_sheet *t)
{
    for (size_t i = 0; i < t->lines; i++)
        for (size_t j = i + 1; j < t->lines; j++)
            if (memcmp(t->line + 6 * i, t->line + 6 * j, 6) == 0) return 1;
    return 0;
}

/* whether a place has a degree above n */
static int model_beyond(const model_sheet *t, uint32_t n)
{
    for (size_t j = 0; j < t->places; j++)
        if (t->place[j * (2 + 16 * t->tides)] > n) return 1;
    return 0;
}

static uint32_t model_ocean_tide(uint32_t n, int64_t *c, size_t c_length, int64_t *s, size_t s_length,
                                 const uint8_t *sheet, size_t sheet_length, surfgimlet_phases b, uint32_t frame)
{
    model_sheet t;
    int64_t sine[128], cosine[128], fcos[32], fsin[32];
    uint32_t refusal;
    if (frame > 1) return 100;
    if ((refusal = model_field(n, c, c_length, s, s_length))) return refusal;
    if ((refusal = model_layout(sheet, sheet_length, &t))) return refusal;
    if (!model_values(&t)) return 8;
    if (model_twins(&t)) return 16;
    if (model_beyond(&t, n)) return 9;
    for (size_t f = 0; f < t.lines; f++) {
        int32_t m[6];
        uint32_t phase;
        for (int i = 0; i < 6; i++) m[i] = (int8_t)t.line[6 * f + i];
        phase = model_phase(m, b);
        sine[f] = model_sine(phase);
        cosine[f] = model_cosine(phase);
    }
    for (size_t k = 0; k < t.tides; k++) {
        int64_t x = 0, y = 0;
        for (size_t f = 0; f < t.lines; f++) {
            int64_t a = model_word(t.row + 4 * (k * t.lines + f));
            x += a * cosine[f];
            y += a * sine[f];
        }
        fcos[k] = model_nearest(x, 1000000, OF_FACTORS);
        fsin[k] = model_nearest(y, 1000000, OF_FACTORS);
    }
    for (size_t j = 0; j < t.places; j++) {
        const uint8_t *p = t.place + j * (2 + 16 * t.tides);
        size_t at = model_place(p[0], p[1]);
        int64_t x = 0, y = 0;
        if (frame == 1 && p[0] == 1) continue;
        for (size_t k = 0; k < t.tides; k++) {
            const uint8_t *q = p + 2 + 16 * k;
            x += fcos[k] * model_word(q) + fsin[k] * model_word(q + 8);
            y += fcos[k] * model_word(q + 4) + fsin[k] * model_word(q + 12);
        }
        c[at] += model_nearest(x, INT64_C(1) << 30, OF_PLACES);
        s[at] += model_nearest(y, INT64_C(1) << 30, OF_PLACES);
    }
    return 0;
}

#endif
