/* What a user would write: a field of doubles, phases in radians, sine and cosine of the C library, kept with the hour, nothing rounded to counts.
 * The sheet and the records of own lines are tested; the field, the bodies, the selection, the argument and the pole's offsets are taken on trust. */
#include <math.h>
#include <string.h>
#include "bench.h"
#include "lines.h"

#define ROW(i, T, S, H, P, N, Q, first, second) {{T, S - 5, H - 5, P - 5, N - 5, Q - 5}, first * 1e-13, second * 1e-13},
static const struct { double multipliers[6], first, second; } printed[LINES] = {PRINTED(ROW)};

static double angle(const double m[6], const double phases[6])
{
    return m[0] * phases[0] + m[1] * phases[1] + m[2] * phases[2] + m[3] * phases[3] + m[4] * phases[4] + m[5] * phases[5];
}

static void renew(doubles_hour *hour, int i)
{
    double x = angle(printed[i].multipliers, hour->phases);
    hour->cosines[i] = cos(x);
    hour->sines[i] = sin(x);
}

void doubles_set_hour(doubles_hour *hour, const double phases[6])
{
    memcpy(hour->phases, phases, sizeof hour->phases);
    for (int i = 0; i < LINES; i++) renew(hour, i);
}

void doubles_move_hour(doubles_hour *hour, uint32_t argument, double amount)
{
    hour->phases[argument] = fmod(hour->phases[argument] + amount, 6.283185307179586);
    for (int i = 0; i < LINES; i++)
        if (printed[i].multipliers[argument] != 0) renew(hour, i);
}

/* P and Q of one body, added to what is there */
static void raise(surfgimlet_body body, double p[7], double q[7])
{
    double over = body.kind == SURFGIMLET_RECTANGULAR ? body.r : 1, u = body.x / over, v = body.y / over, w = body.z / over;
    double t = 6378136.3 / body.r, two = body.ratio * t * t * t, three = two * t;
    double e2 = u * u - v * v, f2 = 2 * u * v, e3 = u * e2 - v * f2, f3 = u * f2 + v * e2;
    double n[7] = {
        sqrt(5.0) * (3 * w * w - 1) / 2 * two, sqrt(5 / 3.0) * 3 * w * two, sqrt(5 / 12.0) * 3 * two, sqrt(7.0) * (5 * w * w - 3) * w / 2 * three,
        sqrt(7 / 6.0) * (15 * w * w - 3) / 2 * three, sqrt(7 / 60.0) * 15 * w * three, sqrt(7 / 360.0) * 15 * three};
    p[0] += n[0]; p[3] += n[3];
    p[1] += n[1] * u; q[1] += n[1] * v;
    p[2] += n[2] * e2; q[2] += n[2] * f2;
    p[4] += n[4] * u; q[4] += n[4] * v;
    p[5] += n[5] * e2; q[5] += n[5] * f2;
    p[6] += n[6] * e3; q[6] += n[6] * f3;
}

void doubles_solid_tide(double *c, double *s, surfgimlet_body moon, surfgimlet_body sun, uint32_t love, const doubles_hour *hour, uint64_t selection)
{
    static const double real[2][7] = {{0.29525, 0.29470, 0.29801, 0.093, 0.093, 0.093, 0.094}, {0.30190, 0.29830, 0.30102, 0.093, 0.093, 0.093, 0.094}};
    static const double imaginary[2][7] = {{0}, {0, -0.00144, -0.00130}};
    static const double plus[2][3] = {{-0.00087, -0.00079, -0.00057}, {-0.00089, -0.00080, -0.00057}};
    double p[7] = {0}, q[7] = {0}, c20 = 0, c21 = 0, s21 = 0, c22 = 0, s22 = 0;
    raise(moon, p, q);
    raise(sun, p, q);
    for (int i = 0; i < 7; i++) {
        double over = i < 3 ? 5 : 7, x = p[i] / over, y = q[i] / over;
        c[3 + i] += real[love][i] * x + imaginary[love][i] * y;
        s[3 + i] += real[love][i] * y - imaginary[love][i] * x;
        if (i < 3) {
            c[10 + i] += plus[love][i] * x;
            s[10 + i] += plus[love][i] * y;
        }
    }
    for (int i = 0; i < LINES; i++) {
        double sine = hour->sines[i], cosine = hour->cosines[i], first = printed[i].first, second = printed[i].second;
        if (!(selection >> i & 1) || i >= DIURNAL && i < SEMIDIURNAL && !love) continue;
        if (i < DIURNAL) {
            c21 += (love ? second : first) * sine;
            s21 += (love ? second : first) * cosine;
        } else if (i < SEMIDIURNAL) {
            c20 += first * cosine - second * sine;
        } else {
            c22 += first * cosine;
            s22 -= first * sine;
        }
    }
    c[3] += c20 - 4.4228e-8 * -0.31460 * real[love][0];
    c[4] += c21; c[5] += c22;
    s[4] += s21; s[5] += s22;
}

uint32_t doubles_own_lines(double *c, double *s, const surfgimlet_own_line *lines, size_t lines_length, const double phases[6])
{
    double c20 = 0, c21 = 0, s21 = 0, c22 = 0, s22 = 0;
    int good = 1;
    if (lines_length > 64) return 12;
    for (size_t i = 0; i < lines_length; i++) {
        const int32_t m[5] = {lines[i].s, lines[i].h, lines[i].p, lines[i].np, lines[i].ps};
        for (int j = 0; j < 5; j++) good &= (m[j] >= -13) & (m[j] <= 13);
        good &= (lines[i].tau >= 0) & (lines[i].tau <= 2);
        good &= (lines[i].ip >= -100000) & (lines[i].ip <= 100000) & (lines[i].op >= -100000) & (lines[i].op <= 100000);
    }
    if (!good) return 13;
    for (size_t i = 0; i < lines_length; i++) {
        const surfgimlet_own_line *l = &lines[i];
        const double m[6] = {l->tau, l->s, l->h, l->p, l->np, l->ps};
        double x = angle(m, phases), sine = sin(x), cosine = cos(x), ip = (double)l->ip * 1e-13, op = (double)l->op * 1e-13;
        if (l->tau == 0) {
            c20 += ip * cosine - op * sine;
        } else if (l->tau == 1) {
            c21 += ip * sine + op * cosine;
            s21 += ip * cosine - op * sine;
        } else {
            c22 += ip * cosine - op * sine;
            s22 -= ip * sine + op * cosine;
        }
    }
    c[3] += c20; c[4] += c21; c[5] += c22;
    s[4] += s21; s[5] += s22;
    return 0;
}

void doubles_pole_tide(double *c, double *s, double xp, double yp, uint32_t love)
{
    c[4] -= love ? 1.348e-9 * (xp + 0.0112 * yp) : 1.290e-9 * xp;
    s[4] += love ? 1.348e-9 * (yp - 0.0112 * xp) : 1.290e-9 * yp;
}

typedef struct { size_t lines, tides, places; const uint8_t *line, *row, *place; } layout;

static size_t half(const uint8_t *at) { return at[0] + 256u * at[1]; }
static int32_t word(const uint8_t *at) { int32_t w; memcpy(&w, at, 4); return w; }

static int shaped(const uint8_t *sheet, size_t length, layout *t)
{
    const uint8_t *end = sheet + length;
    if (length < 2) return 0;
    t->lines = half(sheet);
    t->line = sheet + 2;
    if (t->lines < 1 || t->lines > 128 || (size_t)(end - t->line) < 6 * t->lines + 2) return 0;
    t->row = t->line + 6 * t->lines + 2;
    t->tides = half(t->row - 2);
    if (t->tides < 1 || t->tides > 32 || (size_t)(end - t->row) < 4 * t->lines * t->tides + 2) return 0;
    t->place = t->row + 4 * t->lines * t->tides + 2;
    t->places = half(t->place - 2);
    return t->places <= 90 && (size_t)(end - t->place) == t->places * (2 + 16 * t->tides);
}

/* every test is made, without a branch for each */
static int valid(const layout *t)
{
    int good = 1, before = -1;
    for (size_t i = 0; i < 6 * t->lines; i++) good &= ((int8_t)t->line[i] >= -13) & ((int8_t)t->line[i] <= 13);
    for (size_t k = 0; k < t->tides; k++) {
        int64_t total = 0;
        for (size_t f = 0; f < t->lines; f++) {
            int64_t a = word(t->row + 4 * (k * t->lines + f));
            total += a < 0 ? -a : a;
        }
        good &= total <= 4000000;
    }
    for (size_t j = 0; j < t->places; j++) {
        const uint8_t *place = t->place + j * (2 + 16 * t->tides);
        int here = place[0] * 256 + place[1];
        int32_t in_s = 0;
        good &= (place[0] >= 1) & (place[0] <= 12) & (place[1] <= place[0]) & (here > before);
        before = here;
        for (size_t k = 0; k < t->tides; k++) {
            for (int q = 0; q < 4; q++) {
                int32_t x = word(place + 2 + 16 * k + 4 * q);
                good &= (x >= -(1 << 24)) & (x <= 1 << 24);
            }
            in_s |= word(place + 6 + 16 * k) | word(place + 14 + 16 * k);
        }
        good &= (place[1] > 0) | (in_s == 0);
    }
    return good;
}

/* whether two lines are alike: each as a number of six digits of 27, beside those before it */
static int twins(const layout *t)
{
    int32_t keys[128];
    int found = 0;
    for (size_t f = 0; f < t->lines; f++) {
        keys[f] = 0;
        for (int i = 0; i < 6; i++) keys[f] = 27 * keys[f] + (int8_t)t->line[6 * f + i];
        for (size_t j = 0; j < f; j++) found |= keys[j] == keys[f];
    }
    return found;
}

uint32_t doubles_ocean_tide(uint32_t n, double *c, double *s, const uint8_t *sheet, size_t length, const double phases[6], uint32_t frame)
{
    layout t;
    double sine[128], cosine[128], fcos[32], fsin[32];
    if (!shaped(sheet, length, &t)) return 7;
    if (!valid(&t)) return 8;
    if (twins(&t)) return 16;
    if (t.places && t.place[(t.places - 1) * (2 + 16 * t.tides)] > n) return 9;
    for (size_t f = 0; f < t.lines; f++) {
        double m[6], x;
        for (int i = 0; i < 6; i++) m[i] = (int8_t)t.line[6 * f + i];
        x = angle(m, phases);
        sine[f] = sin(x);
        cosine[f] = cos(x);
    }
    for (size_t k = 0; k < t.tides; k++) {
        double x = 0, y = 0;
        for (size_t f = 0; f < t.lines; f++) {
            double a = word(t.row + 4 * (k * t.lines + f)) * 1e-6;
            x += a * cosine[f];
            y += a * sine[f];
        }
        fcos[k] = x;
        fsin[k] = y;
    }
    for (size_t j = 0; j < t.places; j++) {
        const uint8_t *p = t.place + j * (2 + 16 * t.tides);
        size_t at = (size_t)p[0] * (p[0] + 1u) / 2 + p[1];
        double x = 0, y = 0;
        if (frame == SURFGIMLET_CENTRE_OF_MASS && p[0] == 1) continue;
        for (size_t k = 0; k < t.tides; k++) {
            const uint8_t *q = p + 2 + 16 * k;
            x += fcos[k] * word(q) + fsin[k] * word(q + 8);
            y += fcos[k] * word(q + 4) + fsin[k] * word(q + 12);
        }
        c[at] += x * 1e-15;
        s[at] += y * 1e-15;
    }
    return 0;
}
