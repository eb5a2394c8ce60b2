/* The unit's four calls over a field and the three that make an hour, in C written for speed: the same refusals in the same order, the same counts and the
 * same hours, no intrinsics. Each compiler's copy has names of its own, by -D'CALL(x)=..'. Compile with -ffp-contract=off. */
#include <math.h>
#include <string.h>
#include "bench.h"
#include "lines.h"

#define INLINE static inline __attribute__((always_inline))
#define ONE UINT64_C(1)

/* ---- the field */

#define LIMIT (INT64_C(1) << 60)

static int each_in_range(const int64_t *list, size_t length)
{
    for (size_t i = 0; i < length; i++)
        if (list[i] < -LIMIT || list[i] > LIMIT) return 0;
    return 1;
}

/* x + 2^60 is below 2^61 for every x in range but 2^60: all the bits together tell, without a branch; where they do not, each is looked at */
INLINE int in_range(const int64_t *list, size_t length)
{
    uint64_t bits = 0;
    for (size_t i = 0; i < length; i++) bits |= (uint64_t)list[i] + (ONE << 60);
    return bits < ONE << 61 || each_in_range(list, length);
}

INLINE uint32_t field_refusal(uint32_t n, const int64_t *c, size_t c_length, const int64_t *s, size_t s_length)
{
    size_t size = ((size_t)n + 1) * ((size_t)n + 2) / 2;
    if (n < 4 || n > 60 || c_length != size || s_length != size) return 1;
    return in_range(c, c_length) && in_range(s, s_length) ? 0 : 2;
}

/* ---- sine and cosine */

/* v / d of a 32-bit v as a product and a shift: factor is 2^shift / d rounded up, near enough for every v that comes */
#define OVER(v, factor, shift) ((v) * UINT64_C(factor) >> (shift))
/* one step of the nested series, which keeps h - 1, since that has 32 bits: y*h is y*g + y */
#define STEP(g, d, factor, shift) (UINT64_C(0xffffffff) - OVER((y * (g) + y + ((uint64_t)(d) << 31)) >> 32, factor, shift))

/* The sines and cosines of so many phases, 2^30 added to each, so that all are unsigned: two or four at a time, where the compiler sees how. */
static void waves(const uint32_t *restrict phases, size_t count, uint32_t *restrict sines, uint32_t *restrict cosines)
{
    for (size_t i = 0; i < count; i++) {
        uint32_t phase = phases[i], eighth = phase >> 29, rest = phase & 0x1fffffff;
        uint32_t a = eighth & 1 ? (UINT32_C(1) << 29) - rest : rest;
        uint64_t x = 6 * a + (uint32_t)(((uint64_t)a * 608135817 + (ONE << 30)) >> 31); /* 13493037705 = 6 * 2^31 + 608135817 */
        uint64_t y = (x * x + (ONE << 31)) >> 32;
        uint64_t g = UINT64_C(0xffffffff) - OVER(y + 55, 156180629, 34);
        uint64_t h = UINT64_C(0xffffffff) - OVER(y + 66, 1041204193, 37);
        uint32_t s, c, at_sine, at_cosine;
        g = STEP(g, 72, 954437177, 36);
        g = STEP(g, 42, 818089009, 35);
        g = STEP(g, 20, 1717986919, 35);
        g = STEP(g, 6, 2863311531, 34);
        s = (uint32_t)((((x * g + x + (ONE << 31)) >> 32) + 2) >> 2);
        h = STEP(h, 90, 3054198967, 38);
        h = STEP(h, 56, 2454267027, 37);
        h = STEP(h, 30, 2290649225, 36);
        h = STEP(h, 12, 2863311531, 35);
        h = UINT64_C(0xffffffff) - ((y * h + y + (ONE << 32)) >> 33);
        c = (uint32_t)((h + 3) >> 2);
        at_sine = eighth + 1 & 2 ? c : s;
        at_cosine = eighth + 1 & 2 ? s : c;
        sines[i] = (UINT32_C(1) << 30) + (eighth & 4 ? -at_sine : at_sine);
        cosines[i] = (UINT32_C(1) << 30) + (eighth + 2 & 4 ? -at_cosine : at_cosine);
    }
}

INLINE int64_t wave(uint32_t raised) { return (int64_t)raised - (INT64_C(1) << 30); }

/* a half away from zero: below zero one unit less than a half is added, before rounding down */
INLINE int64_t nearest_30(int64_t sum) { return (sum + (INT64_C(1) << 29) - (sum < 0)) >> 30; }

/* sum / over, its size below most: raised by that, so that the division is unsigned; over is even */
INLINE int64_t nearest(int64_t sum, uint64_t over, uint64_t most)
{
    return (int64_t)(((uint64_t)sum + most * over + over / 2 - (sum < 0)) / over) - (int64_t)most;
}

/* ---- the hour */

/* the digits are constants: what they multiply by 0 goes, and the rest is little more than added */
#define PHASE(T, S, H, P, N, Q) (T * b.tau + (S - 5u) * b.s + (H - 5u) * b.h + (P - 5u) * b.p + (N - 5u) * b.np + (Q - 5u) * b.ps)
#define EACH(i, T, S, H, P, N, Q, first, second) phases[i] = PHASE(T, S, H, P, N, Q);

surfgimlet_hour CALL(set_hour)(surfgimlet_phases b)
{
    uint32_t phases[LINES], sines[LINES], cosines[LINES];
    surfgimlet_hour hour;
    hour.phases = b;
    PRINTED(EACH)
    waves(phases, LINES, sines, cosines);
    for (int i = 0; i < LINES; i++) {
        hour.cosines[i] = (int32_t)wave(cosines[i]);
        hour.sines[i] = (int32_t)wave(sines[i]);
    }
    return hour;
}

/* every cosine is one, every sine nothing */
surfgimlet_hour CALL(start_hour)(void)
{
    surfgimlet_hour hour = {.phases = {0}};
    for (int i = 0; i < LINES; i++) hour.cosines[i] = INT32_C(1) << 30;
    return hour;
}

/* a line has an argument unless its digit is 0, of tau, or 5, of another */
#define IF_0(x)
#define IF_1(x) x
#define IF_2(x) x
#define IF_3(x) x
#define IF_4(x) x
#define IF_5(x)
#define IF_6(x) x
#define IF_7(x) x
#define IF_8(x) x
#define IF_9(x) x
#define RENEW(i, T, S, H, P, N, Q) at[count] = i; phases[count++] = PHASE(T, S, H, P, N, Q);
#define WITH_TAU(i, T, S, H, P, N, Q, first, second) IF_##T(RENEW(i, T, S, H, P, N, Q))
#define WITH_S(i, T, S, H, P, N, Q, first, second) IF_##S(RENEW(i, T, S, H, P, N, Q))
#define WITH_H(i, T, S, H, P, N, Q, first, second) IF_##H(RENEW(i, T, S, H, P, N, Q))
#define WITH_P(i, T, S, H, P, N, Q, first, second) IF_##P(RENEW(i, T, S, H, P, N, Q))
#define WITH_NP(i, T, S, H, P, N, Q, first, second) IF_##N(RENEW(i, T, S, H, P, N, Q))
#define WITH_PS(i, T, S, H, P, N, Q, first, second) IF_##Q(RENEW(i, T, S, H, P, N, Q))

surfgimlet_hour CALL(move_hour)(surfgimlet_hour hour, uint32_t argument, int32_t amount, uint32_t *answer)
{
    uint32_t phases[LINES], sines[LINES], cosines[LINES];
    uint8_t at[LINES];
    size_t count = 0;
    surfgimlet_hour moved = hour;
    surfgimlet_phases b = hour.phases;
    *answer = 0;
    switch (argument) {
    case SURFGIMLET_TAU: b.tau += (uint32_t)amount; PRINTED(WITH_TAU) break;
    case SURFGIMLET_S: b.s += (uint32_t)amount; PRINTED(WITH_S) break;
    case SURFGIMLET_H: b.h += (uint32_t)amount; PRINTED(WITH_H) break;
    case SURFGIMLET_P: b.p += (uint32_t)amount; PRINTED(WITH_P) break;
    case SURFGIMLET_NP: b.np += (uint32_t)amount; PRINTED(WITH_NP) break;
    case SURFGIMLET_PS: b.ps += (uint32_t)amount; PRINTED(WITH_PS) break;
    default: *answer = SURFGIMLET_NO_SUCH_CHOICE; return moved;
    }
    moved.phases = b;
    waves(phases, count, sines, cosines);
    for (size_t k = 0; k < count; k++) {
        moved.cosines[at[k]] = (int32_t)wave(cosines[k]);
        moved.sines[at[k]] = (int32_t)wave(sines[k]);
    }
    return moved;
}

/* ---- solid tide: the lines */

/* the lines from one index to before another, as a selection */
#define BITS(from, to) ((ONE << (to)) - (ONE << (from)))

/* A kept value is 2^16 times its upper half, and its lower half, which is unsigned: with 2^15 taken off, both are signed numbers of 16 bits, as the amplitudes
 * are, and eight such products go at a time. The lists, of 28 lines, have each amplitude at the lower half or at the upper one, and 0 at the other. */
enum { LISTED = 28, HALVES = 2 * LISTED };
typedef int16_t half_value __attribute__((may_alias));
typedef struct { _Alignas(16) int16_t lower[HALVES], upper[HALVES]; int64_t sum; } amplitudes;

#define LOWER_1(i, T, S, H, P, N, Q, first, second) first, 0,
#define UPPER_1(i, T, S, H, P, N, Q, first, second) 0, first,
#define PLUS_1(i, T, S, H, P, N, Q, first, second) + (first)
#define LOWER_2(i, T, S, H, P, N, Q, first, second) second, 0,
#define UPPER_2(i, T, S, H, P, N, Q, first, second) 0, second,
#define PLUS_2(i, T, S, H, P, N, Q, first, second) + (second)

/* from the first line, with nothing of two beyond the diurnal ones; up to the last, with nothing of the five before those of long period nor of two beyond */
#define BEFORE 0, 0, 0, 0, 0, 0, 0, 0, 0, 0,
static const amplitudes diurnal[2] = {{{DIURNAL_LINES(LOWER_1)}, {DIURNAL_LINES(UPPER_1)}, DIURNAL_LINES(PLUS_1)},
                                      {{DIURNAL_LINES(LOWER_2)}, {DIURNAL_LINES(UPPER_2)}, DIURNAL_LINES(PLUS_2)}};
static const amplitudes in_phase = {{BEFORE LONG_PERIOD_LINES(LOWER_1)}, {BEFORE LONG_PERIOD_LINES(UPPER_1)}, LONG_PERIOD_LINES(PLUS_1)};
static const amplitudes out_of_phase = {{BEFORE LONG_PERIOD_LINES(LOWER_2)}, {BEFORE LONG_PERIOD_LINES(UPPER_2)}, LONG_PERIOD_LINES(PLUS_2)};

/* Where clang sees the amplitudes it takes the products apart, and of itself it takes four at a time. */
static __attribute__((noinline)) int64_t product(const int32_t *values, const amplitudes *a)
{
    const half_value *v = (const half_value *)values;
    int32_t lower = 0, upper = 0;
#ifdef __clang__
#pragma clang loop vectorize_width(8)
#endif
    for (int j = 0; j < HALVES; j++) {
        lower += a->lower[j] * (int16_t)(v[j] ^ 0x8000);
        upper += a->upper[j] * v[j];
    }
    return upper * INT64_C(65536) + lower + a->sum * 32768;
}

typedef struct { int64_t c20, c21, s21, c22, s22; } sums;

/* the values of the lines named, 0 for the others */
#define BIT(i, T, S, H, P, N, Q, first, second) UINT32_C(1) << i % 32,
static const uint32_t bits[LINES] = {PRINTED(BIT)};

INLINE void keep(const int32_t *restrict values, uint64_t named, int32_t *restrict kept)
{
    uint32_t low = (uint32_t)named, high = (uint32_t)(named >> 32);
    for (int i = 0; i < 32; i++) kept[i] = values[i] & -((low & bits[i]) == bits[i]);
    for (int i = 32; i < LINES; i++) kept[i] = values[i] & -((high & bits[i]) == bits[i]);
}

#define SEMI(i, T, S, H, P, N, Q, first, second) t.c22 += INT64_C(first) * cosines[i]; t.s22 -= INT64_C(first) * sines[i];

/* those of a selection, in 2^-30 of 100 counts */
INLINE sums of_lines(const surfgimlet_hour *hour, uint32_t love, uint64_t selection)
{
    const uint64_t used = love ? BITS(0, LINES) : BITS(0, LINES) ^ BITS(DIURNAL, SEMIDIURNAL), named = selection & used;
    const int32_t *cosines = hour->cosines, *sines = hour->sines;
    int32_t kept_cosines[LINES], kept_sines[LINES];
    sums t = {0};
    if (!named) return t;
    if (named != used) {
        keep(cosines, named, kept_cosines);
        keep(sines, named, kept_sines);
        cosines = kept_cosines;
        sines = kept_sines;
    }
    t.c21 = product(sines, &diurnal[love]);
    t.s21 = product(cosines, &diurnal[love]);
    if (love) t.c20 = product(cosines + LINES - LISTED, &in_phase) - product(sines + LINES - LISTED, &out_of_phase);
    SEMIDIURNAL_LINES(SEMI)
    return t;
}

/* ---- solid tide: the bodies */

typedef struct { double u, v, w; } direction;
typedef struct { double p[7], q[7]; } potential;

INLINE uint32_t see(const surfgimlet_body *body, direction *d)
{
    double u = body->x, v = body->y, w = body->z, r = body->r, ratio = body->ratio, beyond;
    if (!(isfinite(ratio) & isfinite(u) & isfinite(v) & isfinite(w) & isfinite(r))) return 3;
    if (!((r >= 1e8) & (r <= 1e12) & (ratio > 0) & (ratio <= 1e6))) return 4;
    if (body->kind == SURFGIMLET_RECTANGULAR) { u /= r; v /= r; w /= r; }
    beyond = ((u * u + v * v) + w * w) - 1;
    d->u = u; d->v = v; d->w = w;
    return (beyond >= -0x1p-40) & (beyond <= 0x1p-40) ? 0 : 5;
}

INLINE potential raised(double ratio, double r, direction d)
{
    double u = d.u, v = d.v, w = d.w, w2 = w * w;
    double q = 6378136.3 / r, q3 = (q * q) * q, two = ratio * q3, three = ratio * (q3 * q);
    double e1 = u * 1.0 - v * 0.0, f1 = u * 0.0 + v * 1.0;
    double e2 = u * e1 - v * f1, f2 = u * f1 + v * e1;
    double e3 = u * e2 - v * f2, f3 = u * f2 + v * e2;
    double t20 = (2.236067977499789696409 * ((3 * w2 - 1) / 2)) * two;
    double t21 = (1.290994448735805628393 * (3 * w)) * two;
    double t22 = (0.645497224367902814196 * 3) * two;
    double t30 = (2.645751311064590590501 * (((5 * w2 - 3) * w) / 2)) * three;
    double t31 = (1.080123449734643371827 * ((15 * w2 - 3) / 2)) * three;
    double t32 = (0.341565025531986612774 * (15 * w)) * three;
    double t33 = (0.139443337755679257996 * 15) * three;
    return (potential){{t20 * 1.0, t21 * e1, t22 * e2, t30 * 1.0, t31 * e1, t32 * e2, t33 * e3},
                       {t20 * 0.0, t21 * f1, t22 * f2, t30 * 0.0, t31 * f1, t32 * f2, t33 * f3}};
}

/* the count nearest x, of size below 2^52, where x less its whole part is exact */
INLINE int64_t count(double x)
{
    int64_t whole = (int64_t)x;
    double rest = x - (double)whole;
    return whole + (rest >= 0.5) - (rest <= -0.5);
}

/* what both raise at the ten places, in counts not yet rounded: 3 to 6, or 0 */
INLINE uint32_t of_bodies(const surfgimlet_body *moon, const surfgimlet_body *sun, uint32_t love, double dc[10], double ds[10])
{
    static const double real[2][7] = {{0.29525, 0.29470, 0.29801, 0.093, 0.093, 0.093, 0.094}, {0.30190, 0.29830, 0.30102, 0.093, 0.093, 0.093, 0.094}};
    static const double imaginary[2][7] = {{0}, {0, -0.00144, -0.00130}};
    static const double plus[2][3] = {{-0.00087, -0.00079, -0.00057}, {-0.00089, -0.00080, -0.00057}};
    direction to_moon, to_sun;
    potential m, b;
    uint32_t refusal;
    int small = 1;
    if ((refusal = see(moon, &to_moon))) return refusal;
    if ((refusal = see(sun, &to_sun))) return refusal;
    m = raised(moon->ratio, moon->r, to_moon);
    b = raised(sun->ratio, sun->r, to_sun);
    for (int i = 0; i < 7; i++) {
        double over = i < 3 ? 5 : 7, p = (m.p[i] + b.p[i]) / over, q = (m.q[i] + b.q[i]) / over;
        dc[i] = (real[love][i] * p + imaginary[love][i] * q) * 1e15;
        ds[i] = (real[love][i] * q - imaginary[love][i] * p) * 1e15;
        if (i < 3) {
            dc[7 + i] = (plus[love][i] * p) * 1e15;
            ds[7 + i] = (plus[love][i] * q) * 1e15;
        }
    }
    for (int i = 0; i < 10; i++) small &= (fabs(dc[i]) < 0x1p52) & (fabs(ds[i]) < 0x1p52);
    return small ? 0 : 6;
}

/* ---- solid tide */

/* Both steps' corrections of an entry are one sum, added once. */
uint32_t CALL(solid_tide)(uint32_t n, int64_t *restrict c, size_t c_length, int64_t *restrict s, size_t s_length, surfgimlet_body moon, surfgimlet_body sun,
                          uint32_t love, surfgimlet_hour hour, uint64_t selection, uint32_t *restrict lines)
{
    double dc[10], ds[10];
    uint32_t refusal;
    sums t;
    if (love > 1 || moon.kind > 1 || sun.kind > 1) return 100;
    if ((refusal = field_refusal(n, c, c_length, s, s_length))) return refusal;
    if (selection >> LINES) return 14;
    if ((refusal = of_bodies(&moon, &sun, love, dc, ds))) return refusal;
    t = of_lines(&hour, love, selection);
    *lines = (uint32_t)__builtin_popcountll(selection);
    c[3] += count(dc[0]) + nearest_30(100 * t.c20) + (love ? 4200675 : 4108147);
    c[4] += count(dc[1]) + nearest_30(100 * t.c21);
    c[5] += count(dc[2]) + nearest_30(100 * t.c22);
    for (int i = 3; i < 10; i++) c[3 + i] += count(dc[i]);
    s[4] += count(ds[1]) + nearest_30(100 * t.s21);
    s[5] += count(ds[2]) + nearest_30(100 * t.s22);
    s[7] += count(ds[4]); s[8] += count(ds[5]); s[9] += count(ds[6]);
    s[11] += count(ds[8]); s[12] += count(ds[9]);
    return 0;
}

/* ---- lines of an operator's own */

/* Every band takes ip*cosine - op*sine, and ip*sine + op*cosine or its negative: two sums for each. */
uint32_t CALL(own_lines)(uint32_t n, int64_t *restrict c, size_t c_length, int64_t *restrict s, size_t s_length, const surfgimlet_own_line *restrict lines,
                         size_t lines_length, surfgimlet_phases b)
{
    uint32_t phases[64], sines[64], cosines[64], bad = 0, refusal;
    int64_t along[3] = {0}, across[3] = {0};
    if ((refusal = field_refusal(n, c, c_length, s, s_length))) return refusal;
    if (lines_length > 64) return 12;
    if (lines_length == 0) return 0;
    for (size_t i = 0; i < lines_length; i++) {
        const surfgimlet_own_line *l = lines + i;
        uint32_t tau = (uint32_t)l->tau, m1 = (uint32_t)l->s, m2 = (uint32_t)l->h, m3 = (uint32_t)l->p, m4 = (uint32_t)l->np, m5 = (uint32_t)l->ps;
        bad |= (tau > 2) | (m1 + 13 > 26) | (m2 + 13 > 26) | (m3 + 13 > 26) | (m4 + 13 > 26) | (m5 + 13 > 26)
            | ((uint64_t)l->ip + 100000 > 200000) | ((uint64_t)l->op + 100000 > 200000);
        phases[i] = tau * b.tau + m1 * b.s + m2 * b.h + m3 * b.p + m4 * b.np + m5 * b.ps;
    }
    if (bad) return 13;
    waves(phases, lines_length, sines, cosines);
    for (size_t i = 0; i < lines_length; i++) {
        int64_t ip = lines[i].ip, op = lines[i].op, sine = wave(sines[i]), cosine = wave(cosines[i]);
        along[lines[i].tau] += ip * cosine - op * sine;
        across[lines[i].tau] += ip * sine + op * cosine;
    }
    c[3] += nearest_30(100 * along[0]);
    c[4] += nearest_30(100 * across[1]);
    s[4] += nearest_30(100 * along[1]);
    c[5] += nearest_30(100 * along[2]);
    s[5] += nearest_30(-100 * across[2]);
    return 0;
}

/* ---- pole tide */

/* Both models over one denominator, 312500: 1.29 is 403125 of it, 1.348 is 421250, and 1.348 * 0.0112 is 4718. */
uint32_t CALL(pole_tide)(uint32_t n, int64_t *c, size_t c_length, int64_t *s, size_t s_length, int64_t xp, int64_t yp, uint32_t love)
{
    static const int64_t real[2] = {403125, 421250}, imaginary[2] = {0, 4718};
    uint32_t refusal;
    if (love > 1) return 100;
    if ((refusal = field_refusal(n, c, c_length, s, s_length))) return refusal;
    if (((uint64_t)xp + 1000000 > 2000000) | ((uint64_t)yp + 1000000 > 2000000)) return 15;
    c[4] += nearest(-real[love] * xp - imaginary[love] * yp, 312500, ONE << 21);
    s[4] += nearest(real[love] * yp - imaginary[love] * xp, 312500, ONE << 21);
    return 0;
}

/* ---- ocean tide */

typedef struct { size_t lines, tides, places, wide; const uint8_t *line, *row, *place; } layout;

INLINE size_t half(const uint8_t *at) { return at[0] + 256u * at[1]; }
INLINE uint32_t word(const uint8_t *at) { uint32_t w; memcpy(&w, at, 4); return w; }

/* where the sections stand; 0 where a count is out of its range or the length is not exact */
INLINE int shaped(const uint8_t *sheet, size_t length, layout *t)
{
    size_t at = 2;
    if (length < at) return 0;
    t->lines = half(sheet);
    if (t->lines < 1 || t->lines > 128) return 0;
    t->line = sheet + at;
    at += 6 * t->lines + 2;
    if (length < at) return 0;
    t->tides = half(sheet + at - 2);
    if (t->tides < 1 || t->tides > 32) return 0;
    t->row = sheet + at;
    at += 4 * t->lines * t->tides + 2;
    if (length < at) return 0;
    t->places = half(sheet + at - 2);
    t->place = sheet + at;
    t->wide = 2 + 16 * t->tides;
    return t->places <= 90 && length == at + t->places * t->wide;
}

/* a place's counts: all the bits of w + 2^24 together, and each by itself only where they reach 2^25 */
INLINE uint32_t bad_counts(const uint8_t *place, size_t tides)
{
    uint32_t bits = 0, bad = 0;
    for (size_t q = 0; q < 4 * tides; q++) bits |= word(place + 2 + 4 * q) + (UINT32_C(1) << 24);
    if (bits >> 25)
        for (size_t q = 0; q < 4 * tides; q++) bad |= word(place + 2 + 4 * q) + (UINT32_C(1) << 24) > UINT32_C(1) << 25;
    if (place[1] == 0)
        for (size_t k = 0; k < tides; k++) bad |= word(place + 6 + 16 * k) | word(place + 14 + 16 * k);
    return bad;
}

INLINE int valid(const layout *t)
{
    uint32_t bad = 0;
    int before = -1;
    for (size_t i = 0; i < 6 * t->lines; i++) bad |= (uint8_t)(t->line[i] + 13) > 26;
    for (size_t k = 0; k < t->tides; k++) {
        const uint8_t *row = t->row + 4 * t->lines * k;
        uint64_t total = 0;
        for (size_t f = 0; f < t->lines; f++) {
            int32_t a = (int32_t)word(row + 4 * f);
            total += a < 0 ? -(uint32_t)a : (uint32_t)a;
        }
        bad |= total > 4000000;
    }
    for (size_t j = 0; j < t->places; j++) {
        const uint8_t *place = t->place + j * t->wide;
        int here = place[0] * 256 + place[1];
        bad |= (place[0] < 1) | (place[0] > 12) | (place[1] > place[0]) | (here <= before) | bad_counts(place, t->tides);
        before = here;
    }
    return !bad;
}

/* a line's six bytes: eight are there, since the tides' count stands behind the last line, and the two beyond are shifted out */
INLINE uint64_t six(const uint8_t *line) { uint64_t w; memcpy(&w, line, 8); return w << 16; }

/* Each line is looked for among those before it, in a table by a hash of its six bytes. That has room for eight times as many lines as there can be, so that
 * few meet one that is not their twin; it holds a line's number and one, or 0. */
INLINE int twins(const layout *t)
{
    uint8_t table[1024] = {0};
    for (size_t f = 0; f < t->lines; f++) {
        uint64_t key = six(t->line + 6 * f);
        size_t at = key * UINT64_C(0x9e3779b97f4a7c15) >> 54;
        for (; table[at]; at = at + 1 & 1023)
            if (six(t->line + 6 * (table[at] - 1u)) == key) return 1;
        table[at] = (uint8_t)(f + 1);
    }
    return 0;
}

/* Both factors of each tide, in unsigned products: with 2^22 added to an admittance and 2^30 to a wave,
 * sum (a - A)(w - W) = sum a*w - A * sum w - W * sum (a - A). */
INLINE void factors(const layout *t, const uint32_t *sines, const uint32_t *cosines, int64_t *fcos, int64_t *fsin)
{
    uint64_t sum_s = 0, sum_c = 0;
    for (size_t f = 0; f < t->lines; f++) { sum_s += sines[f]; sum_c += cosines[f]; }
    for (size_t k = 0; k < t->tides; k++) {
        const uint8_t *row = t->row + 4 * t->lines * k;
        uint64_t x = 0, y = 0, total = 0;
        for (size_t f = 0; f < t->lines; f++) {
            uint64_t a = word(row + 4 * f) + (UINT32_C(1) << 22);
            x += a * cosines[f];
            y += a * sines[f];
            total += a;
        }
        total -= (uint64_t)t->lines << 22;
        fcos[k] = nearest((int64_t)(x - (sum_c << 22) - (total << 30)), 1000000, ONE << 40);
        fsin[k] = nearest((int64_t)(y - (sum_s << 22) - (total << 30)), 1000000, ONE << 40);
    }
}

uint32_t CALL(ocean_tide)(uint32_t n, int64_t *restrict c, size_t c_length, int64_t *restrict s, size_t s_length, const uint8_t *restrict sheet,
                          size_t length, surfgimlet_phases b, uint32_t frame)
{
    uint32_t phases[128], sines[128], cosines[128], refusal;
    int64_t fcos[32], fsin[32];
    layout t;
    if (frame > 1) return 100;
    if ((refusal = field_refusal(n, c, c_length, s, s_length))) return refusal;
    if (!shaped(sheet, length, &t)) return 7;
    if (!valid(&t)) return 8;
    if (twins(&t)) return 16;
    if (t.places && t.place[(t.places - 1) * t.wide] > n) return 9;     /* they ascend: the last has the highest degree */
    for (size_t f = 0; f < t.lines; f++) {
        const int8_t *m = (const int8_t *)t.line + 6 * f;
        phases[f] = (uint32_t)m[0] * b.tau + (uint32_t)m[1] * b.s + (uint32_t)m[2] * b.h + (uint32_t)m[3] * b.p + (uint32_t)m[4] * b.np + (uint32_t)m[5] * b.ps;
    }
    waves(phases, t.lines, sines, cosines);
    factors(&t, sines, cosines, fcos, fsin);
    for (size_t j = 0; j < t.places; j++) {
        const uint8_t *place = t.place + j * t.wide;
        size_t at = (size_t)place[0] * (place[0] + 1u) / 2 + place[1];
        int64_t x = 0, y = 0;
        if (frame == SURFGIMLET_CENTRE_OF_MASS && place[0] == 1) continue;
        for (size_t k = 0; k < t.tides; k++) {
            const uint8_t *q = place + 2 + 16 * k;
            x += fcos[k] * (int32_t)word(q) + fsin[k] * (int32_t)word(q + 8);
            y += fcos[k] * (int32_t)word(q + 4) + fsin[k] * (int32_t)word(q + 12);
        }
        c[at] += nearest_30(x);
        s[at] += nearest_30(y);
    }
    return 0;
}
