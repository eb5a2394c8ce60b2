/* Fuzz: fuzz COUNT calls the archive on COUNT inputs of a fixed seed, and holds each answer, entry and guard to model.h. */
#define _DEFAULT_SOURCE
#include <inttypes.h>
#include <stdio.h>
#include <stdlib.h>
#include "draw.h"
#include "lent.h"
#include "model.h"

enum { SOLID_TIDE, OWN_LINES, POLE_TIDE, OCEAN_TIDE, MOVE_C20, MULTIPLIERS_OF, NUMBER_OF, FIND_LINE, START_HOUR, SET_HOUR, MOVE_HOUR, CALLS };
static const char *names[CALLS] = {"solid_tide", "own_lines", "pole_tide", "ocean_tide", "move_c20", "multipliers_of", "number_of", "find_line", "start_hour",
    "set_hour", "move_hour"};
static long answered[CALLS][101], differences;

/* what an answer alone does not tell of a solid tide, and of an ocean tide */
enum { MOON_KIND, SUN_KIND, FIELD_AND_14, MOON_AND_14, SUN_AND_14, SIX_AND_14, MOON_ABOVE_SUN, SUN_3, SUN_4, SUN_5, LEFT_BEYOND, BETWEEN_BEYOND,
    OF_OCEAN, FIELD_AND_16 = OF_OCEAN, EIGHT_AND_16, NINE_AND_16, TWIN_ENDS, TWIN_NEIGHBOURS, TWINS_ELSEWHERE, TWINS_OF_128, OFF_BY_1, OFF_BY_26, EVENTS };
static const char *events[EVENTS] = {"the Moon's kind before 1 or 2", "the Sun's kind before 1 or 2", "1 or 2 before 14", "14 before the Moon's",
    "14 before the Sun's", "14 before 6", "the Moon's before a lower one of the Sun's", "the Sun's 3", "the Sun's 4", "the Sun's 5", "an entry left beyond the range",
    "an entry beyond the range after step one, and not after both",
    "1 or 2 before 16", "8 before 16", "16 before 9", "twins that stand first and last", "twins that are neighbours", "twins elsewhere",
    "twins among 128 lines", "two lines one apart in one multiplier, accepted", "two lines 26 apart in one multiplier, accepted"};
static long met[EVENTS];
static const char *rounded[ROUNDINGS] = {"step one", "step two", "own lines", "the pole tide", "a tide's factors", "the ocean tide"};

static double unit(void) { return (double)(any() >> 11) * 0x1p-53; }

static uint32_t phase(void) { return one_in(4) ? (uint32_t)below(16) << 28 : (uint32_t)any() - (one_in(8) ? 1 : 0); }

static surfgimlet_phases phases(void)
{
    surfgimlet_phases b;
    b.tau = phase(); b.s = phase(); b.h = phase(); b.p = phase(); b.np = phase(); b.ps = phase();
    return b;
}

static double odd_double(void)
{
    uint64_t bits = any();
    double x;
    static const double edges[] = {0.0, -0.0, 1.0, -1.0, 1e8, 1e12, 1e6, 5e-324, 1e308, -1e308};
    if (one_in(2)) return edges[below(10)];
    if (one_in(4)) bits |= UINT64_C(0x7ff) << 52; /* an infinity or not a number */
    memcpy(&x, &bits, sizeof x);
    return x;
}

static double away(double x) { return nextafter(x, 2 * x); }

/* a direction whose squares add, in the order of the rule, to an end of the range about 1 or to the float beyond or before it */
static void to_length_one(surfgimlet_body *b)
{
    double ends[2] = {1 + 0x1p-40, 1 - 0x1p-40}, goal = ends[below(2)], size, total;
    if (one_in(3)) goal = nextafter(goal, one_in(2) ? 2 : 0);
    if (b->kind == 0) { b->x /= b->r; b->y /= b->r; b->z /= b->r; }
    size = sqrt(goal / (b->x * b->x + b->y * b->y + b->z * b->z));
    b->x *= size; b->y *= size; b->z *= size;
    for (int i = 0; i < 8 && (total = (b->x * b->x + b->y * b->y) + b->z * b->z) != goal; i++)
        b->z = total < goal ? away(b->z) : nextafter(b->z, 0);
    if (b->kind == 0) { b->r = ldexp(1, 27 + (int)below(12)); b->x *= b->r; b->y *= b->r; b->z *= b->r; } /* x/r gives it back */
}

static surfgimlet_body body(double far, double ratio)
{
    surfgimlet_body b;
    double size;
    do {
        b.x = 2 * unit() - 1; b.y = 2 * unit() - 1; b.z = 2 * unit() - 1;
        size = sqrt(b.x * b.x + b.y * b.y + b.z * b.z);
    } while (size < 0.1 || size > 1);
    if (one_in(8)) { b.x = one_in(2) ? 1 : -1; b.y = b.z = 0; size = 1; }
    if (one_in(8)) { b.z = one_in(2) ? 1 : -1; b.x = b.y = 0; size = 1; }
    b.kind = (uint32_t)below(2);
    b.ratio = one_in(8) ? ratio * pow(10, 12 * unit() - 6) : ratio * (0.5 + unit());
    b.r = one_in(4) ? pow(10, 8 + 4 * unit()) : far * (0.8 + 0.4 * unit());
    if (one_in(40)) b.r = one_in(2) ? 1e8 : 1e12;
    if (one_in(40)) b.r = one_in(2) ? nextafter(1e8, 0) : nextafter(1e12, 2e12);
    if (one_in(40)) b.ratio = one_in(2) ? 1e6 : nextafter(1e6, 2e6);
    if (one_in(40)) b.ratio = one_in(2) ? 0 : -ratio;
    if (one_in(40)) size *= 1 + (unit() - 0.5) * 0x1p-38;
    b.x /= size; b.y /= size; b.z /= size;
    if (b.kind == 0) { b.x *= b.r; b.y *= b.r; b.z *= b.r; }
    if (one_in(12)) to_length_one(&b);
    if (one_in(20)) { double *f[5] = {&b.ratio, &b.x, &b.y, &b.z, &b.r}; *f[below(5)] = odd_double(); }
    if (one_in(60)) b.kind = no_choice(2);
    return b;
}

/* the masses changed until the product at i, C of the ten places and then S, is the goal, or after a few steps nearly so */
static void move_to(surfgimlet_body *moon, surfgimlet_body *sun, uint32_t love, int i, double goal)
{
    double d[20];
    for (int step = 0; step < 10; step++) {
        if (model_products(*moon, *sun, love & 1, d, d + 10) || d[i] == goal || d[i] == 0) return;
        if (step == 0) { moon->ratio *= goal / d[i]; sun->ratio *= goal / d[i]; }
        else moon->ratio = fabs(d[i]) < fabs(goal) ? away(moon->ratio) : nextafter(moon->ratio, 0);
    }
}

/* two near bodies whose largest product is 2^52 counts, or half a count less, of either sign */
static void to_the_bound(surfgimlet_body *moon, surfgimlet_body *sun, uint32_t love)
{
    double d[20];
    int largest = 0;
    moon->kind = sun->kind = 1;
    moon->ratio = sun->ratio = 1;
    moon->r = 1e8 * (1 + 0.2 * unit()); sun->r = 1e8 * (1 + 0.2 * unit());
    if (model_products(*moon, *sun, love & 1, d, d + 10)) return;
    for (int i = 1; i < 20; i++)
        if (fabs(d[i]) > fabs(d[largest])) largest = i;
    move_to(moon, sun, love, largest, copysign(one_in(2) ? 0x1p52 : 0x1p52 - 0.5, d[largest]));
}

/* a product that is a whole number and a half, or the float next to it, nearer to zero: there one rounding more or less shows in the count */
static void to_a_half(surfgimlet_body *moon, surfgimlet_body *sun, uint32_t love)
{
    double d[20], half;
    int i = (int)below(20);
    if (model_products(*moon, *sun, love & 1, d, d + 10)) return;
    half = floor(d[i]) + 0.5;
    move_to(moon, sun, love, i, one_in(2) ? half : nextafter(half, 0));
}

/* any lines, all, few, all but few, a profile; one in twelve with bits that stand for no line */
static uint64_t selection(void)
{
    const uint64_t all = (UINT64_C(1) << 49) - 1;
    uint64_t chosen = any() & all;
    switch (below(6)) {
    case 0: chosen = all; break;
    case 1: chosen = UINT64_C(1) << below(49) | (one_in(2) ? 0 : UINT64_C(1) << below(49)); break;
    case 2: chosen = all ^ (UINT64_C(1) << below(49) | UINT64_C(1) << below(49)); break;
    case 3: chosen = one_in(2) ? surfgimlet_major_lines() : one_in(2) ? 0 : all ^ surfgimlet_major_lines(); break;
    }
    if (one_in(12)) chosen |= one_in(2) ? UINT64_C(1) << (49 + below(15)) : any();
    return chosen;
}

/* a phase whose sine is 7/8, which the line 245,655 makes a whole number of counts and a half: 300 times it, in units of 2^-30 */
static uint32_t phase_of_a_tie(void)
{
    static uint32_t found;
    if (!found) {
        found = (uint32_t)(asin(0.875) / 6.283185307179586 * 0x1p32) - 1000;
        for (int i = 0; i < 2000 && model_sine(found) != 7 << 27; i++) found++;
        if (model_sine(found) != 7 << 27) { puts("fuzz: no phase has the sine 7/8"); exit(1); }
    }
    return found;
}

/* S22 or C22 at a half of either sign, by that line alone: its phase is 2 tau - s + p */
static void to_a_tie_of_lines(surfgimlet_hour *hour, uint64_t *chosen)
{
    const surfgimlet_phases at = {0, 0u - (phase_of_a_tie() + ((uint32_t)below(4) << 30)), 0, 0, 0, 0};
    *hour = surfgimlet_set_hour(at);
    *chosen = UINT64_C(1) << 47;
}

/* an offset, some in the fifties, where the elastic model has its halves; one in twelve beyond an arcsecond, up to its width */
static int64_t offset(void)
{
    static const int64_t ends[] = {1000000, -1000000, 1000001, -1000001, INT64_C(1) << 32, -(INT64_C(1) << 32), (INT64_C(1) << 62) + 5, INT64_MAX, INT64_MIN,
        INT64_MIN + 1000000};
    if (one_in(12)) return one_in(8) ? (int64_t)any() : ends[below(10)];
    if (one_in(4)) return 100 * within(9999) + 50;
    return within(one_in(4) ? 100 : 1000000);
}

/* 10000 x + 112 y a multiple of 1250000, as where the anelastic model has its halves: y is one of 625, and x then one in 125 */
static void to_a_half_offset(int64_t *x, int64_t *y)
{
    *y = 625 * within(1600);
    *x = within(999000);
    for (int i = 0; i < 125 && (10000 * *x + 112 * *y) % 1250000; i++) ++*x;
}

static int32_t multiplier(void) { return (int32_t)within(one_in(4) ? 3 : 13); }

static int64_t amplitude(void)
{
    switch (below(8)) {
    case 0: return 0;
    case 1: return 100000;
    case 2: return -100000;
    case 3: return within(INT64_C(1) << below(16));
    default: return within(100000);
    }
}

static surfgimlet_own_line record(void)
{
    surfgimlet_own_line l;
    l.tau = (int32_t)below(3);
    l.s = multiplier(); l.h = multiplier(); l.p = multiplier(); l.np = multiplier(); l.ps = multiplier();
    l.ip = amplitude(); l.op = amplitude();
    return l;
}

/* one field of a record at an end of its range or beyond, up to its width: 2^32 and 2^62 are 0 where the width is cut or hundreds are taken */
static void spoil(surfgimlet_own_line *l)
{
    static const int32_t firsts[] = {0, 2, 3, -1, 13, -13, 256, -65536, INT32_MAX, INT32_MIN, INT32_MIN + 1, INT32_MIN + 2};
    static const int32_t others[] = {13, -13, 14, -14, 127, 256, 65536, -65536, INT32_MAX, INT32_MIN, INT32_MIN + 13, INT32_MAX - 12};
    static const int64_t sizes[] = {100000, -100000, 100001, -100001, INT64_C(1) << 32, -(INT64_C(1) << 32), INT64_C(1) << 62, -(INT64_C(1) << 62),
        INT64_MAX, INT64_MIN, INT64_MIN + 100000, INT64_MAX - 99999};
    int32_t *field[5] = {&l->s, &l->h, &l->p, &l->np, &l->ps};
    uint64_t which = below(8), value = below(13);
    if (which == 0) l->tau = value < 12 ? firsts[value] : (int32_t)any();
    else if (which < 6) *field[which - 1] = value < 12 ? others[value] : (int32_t)any();
    else *(which == 6 ? &l->ip : &l->op) = value < 12 ? sizes[value] : (int64_t)any();
}

/* a list that is right, some of one record over and over; then one in three with a spoilt field, one in twelve too long */
static void records(lent_records *l)
{
    size_t count = one_in(3) ? below(65) : one_in(6) ? 64 : below(9);
    surfgimlet_own_line *r = l->all + 1;
    int equal = one_in(8);
    if (one_in(12)) count = one_in(3) ? 65 : 65 + below(MOST_RECORDS - 64);
    lend_records(l, count);
    for (size_t i = 0; i < count; i++) r[i] = equal && i ? r[0] : record();
    if (count && one_in(3)) spoil(&r[one_in(3) ? count - 1 : below(count)]);
    if (one_in(100)) for (size_t i = 0; i < count; i++) spoil(&r[i]);
}

/* one record of 2^16 and a phase where that many hundred times the sine or the cosine is a whole number of counts and a half */
static void to_a_tie(lent_records *l, surfgimlet_phases *f)
{
    const surfgimlet_own_line one = {(int32_t)below(3), 1, 0, 0, 0, 0, one_in(2) ? 65536 : -65536, 0};
    lend_records(l, 1);
    l->all[1] = one;
    if (one_in(2)) { l->all[1].op = one.ip; l->all[1].ip = 0; }
    f->tau = 0;
    for (int i = 0; i < 10000; i++) {
        f->s = (uint32_t)any();
        if ((6553600 * model_sine(f->s) & 0x3fffffff) == 0x20000000 || (6553600 * model_cosine(f->s) & 0x3fffffff) == 0x20000000) return;
    }
}

static uint8_t *put16(uint8_t *at, uint64_t x) { at[0] = (uint8_t)x; at[1] = (uint8_t)(x >> 8); return at + 2; }
static uint8_t *put32(uint8_t *at, int64_t x) { put16(at, (uint64_t)x & 0xffff); put16(at + 2, (uint64_t)x >> 16 & 0xffff); return at + 4; }

/* one multiplier of two lines, made so far apart */
static void set_apart(uint8_t *one, uint8_t *other, uint64_t by)
{
    *one = (uint8_t)(below(27 - by) - 13);
    *other = (uint8_t)(*one + by);
}

/* Two lines of a sheet made twins: the first and the last, two neighbours or any two. Or nearly twins: one multiplier 1 or 26 apart; or one by 1 and one
 * beside it back by up to 26, as where two lines make the same number by a radix that is too small. */
static void make_alike(uint8_t *lines, uint64_t count, int nearly)
{
    uint64_t i = below(count - 1), j = one_in(3) ? i + 1 : i + 1 + below(count - 1 - i), k = below(6);
    uint8_t *one = lines + 6 * i, *other = lines + 6 * j;
    if (one_in(4)) { one = lines; other = lines + 6 * (count - 1); }
    memcpy(other, one, 6);
    if (nearly && one_in(3)) {
        uint64_t next = k == 0 ? 1 : k == 5 ? 4 : one_in(2) ? k - 1 : k + 1;
        set_apart(one + k, other + k, 1);
        set_apart(other + next, one + next, 1 + below(26));
    } else if (nearly) {
        set_apart(one + k, other + k, one_in(2) ? 26 : 1);
    }
}

/* a sheet that is right, then one in three damaged: a byte, a count, a word, a place, its length; one in ten has twin lines and one in ten nearly twins,
 * among more lines, since a test that takes several at a time has an end to get right */
static size_t sheet(uint8_t *out)
{
    uint8_t *at = out;
    uint64_t lines = 1 + below(6), tides = 1 + below(3), places = below(7), top = one_in(3) ? 12 : 4, n = 1, m = 0, alike = below(10);
    size_t length;
    if (alike < 2) lines = one_in(12) ? 128 : 2 + below(one_in(6) ? 127 : 23);
    if (one_in(500)) { lines = 1 + below(128); tides = 1 + below(32); }
    if (one_in(100)) { lines = 128; tides = 1; }
    if (one_in(100)) { places = 90; top = 12; tides = 1; }
    if (one_in(5000)) { lines = 128; tides = 32; places = 90; top = 12; }
    if (one_in(40)) switch (below(5)) { /* one beyond a count's range, the length exact for it */
    case 0: lines = 0; break;
    case 1: lines = 129; break;
    case 2: tides = 0; break;
    case 3: tides = 33; break;
    case 4: places = 91; top = 13; tides = 1; break;
    }
    at = put16(at, lines);
    for (uint64_t i = 0; i < 6 * lines; i++) *at++ = (uint8_t)within(one_in(4) ? 13 : 3);
    if (alike < 2 && lines > 1) make_alike(out + 2, lines, alike == 1);
    at = put16(at, tides);
    for (uint64_t k = 0; k < tides; k++) {
        int64_t left = 4000000;
        for (uint64_t f = 0; f < lines; f++) {
            int64_t a = f + 1 == lines && one_in(2) ? left : (int64_t)below((uint64_t)left / (one_in(2) ? 1 : lines) + 1);
            left -= a;
            at = put32(at, one_in(2) ? a : -a);
        }
    }
    uint8_t *count = at;
    uint64_t put = 0;
    at += 2;
    for (; n <= top && put < places; m < n ? m++ : (n++, m = 0)) {
        if (places < 90 && !one_in(top >= 12 ? 12 : 3)) continue;
        *at++ = (uint8_t)n; *at++ = (uint8_t)m; put++;
        for (uint64_t q = 0; q < 4 * tides; q++) {
            int64_t edge = one_in(2) ? 1 << 24 : -(1 << 24);
            at = put32(at, (q & 1) && m == 0 ? 0 : one_in(8) ? edge : within(one_in(2) ? 1 << 24 : 1000));
        }
    }
    put16(count, put);
    length = (size_t)(at - out);
    switch (below(24)) {
    case 0: out[below(length)] = (uint8_t)any(); break;
    case 1: out[below(length)] ^= (uint8_t)(1 << below(8)); break;
    case 2: put16(one_in(2) ? out : count, one_in(2) ? below(200) : any()); break;
    case 3: length -= one_in(2) ? 1 : below(length); break;
    case 4: out[length++] = 0; break;
    case 5: if (lines) out[2 + below(6 * lines)] = one_in(2) ? 14 : (uint8_t)-14; break;
    case 6:
        if (lines && tides) {
            uint8_t *w = out + 4 + 6 * lines + 4 * below(lines * tides);
            put32(w, one_in(2) ? 4000001 : model_word(w) + 1);
        }
        break;
    case 7: if (put && tides) put32(count + 4 + 4 * below(4 * tides), one_in(2) ? (1 << 24) + 1 : -(1 << 24) - 1); break;
    case 8: if (put) count[2 + (2 + 16 * tides) * below(put)] = (uint8_t)below(15); break;
    case 9: if (put) count[3 + (2 + 16 * tides) * below(put)] = (uint8_t)below(15); break;
    }
    if (one_in(100)) { length = one_in(8) ? 0 : below(64); for (size_t i = 0; i < length; i++) out[i] = (uint8_t)any(); }
    return length;
}

/* a sheet of one line and one place, its admittances halves and ones, its counts 2^24 and none: of a factor every second sum is a half, of the place one
 * in 64; where all tides round alike, a factor's shows in the place */
static size_t tie_sheet(uint8_t *out)
{
    uint64_t tides = one_in(2) ? 32 : 1 + below(3);
    uint8_t *at = put16(out, 1);
    int64_t half = one_in(2) ? 500000 : -500000, whole = 2 * half;
    int alike = one_in(2);
    for (int i = 0; i < 6; i++) *at++ = i == 0;
    at = put16(at, tides);
    for (uint64_t k = 0; k < tides; k++) at = put32(at, alike ? half : one_in(2) ? -half : whole);
    at = put16(at, 1);
    *at++ = 2; *at++ = 2;
    for (uint64_t q = 0; q < 4 * tides; q++) at = put32(at, alike ? 1 << 24 : one_in(2) ? 0 : one_in(2) ? 1 << 24 : -(1 << 24));
    return (size_t)(at - out);
}

static void expect(int call, uint32_t answer, uint32_t told, int as_told)
{
    answered[call][told]++;
    if (answer == told && as_told) return;
    if (differences++ < 20)
        printf("%s: answered %" PRIu32 ", the model %" PRIu32 "%s\n", names[call], answer, told, as_told ? "" : ", and an entry, a result or a guard differs");
}

/* any 32 bits, half of them an end of the range, a quarter turn or about zero */
static int32_t signed_32(void)
{
    static const int32_t ends[] = {INT32_MIN, INT32_MIN + 1, INT32_MAX, INT32_MAX - 1, 1 << 30, -(1 << 30), 0, 1, -1};
    return one_in(2) ? ends[below(9)] : (int32_t)any();
}

static surfgimlet_hour start_hour(void)
{
    results got = fresh(), told = fresh();
    got.hour = surfgimlet_start_hour();
    told.hour = model_start_hour();
    expect(START_HOUR, 0, 0, same_results(&got, &told));
    return got.hour;
}

static surfgimlet_hour set_hour(void)
{
    results got = fresh(), told = fresh();
    surfgimlet_phases f = phases();
    got.hour = surfgimlet_set_hour(f);
    told.hour = model_set_hour(f);
    expect(SET_HOUR, 0, 0, same_results(&got, &told));
    return got.hour;
}

static surfgimlet_hour move_hour(surfgimlet_hour hour)
{
    results got = fresh(), told = fresh();
    const surfgimlet_hour given = hour;
    uint32_t argument = choice(6);
    int32_t amount = signed_32();
    got.hour = surfgimlet_move_hour(hour, argument, amount, &got.answer);
    told.hour = model_move_hour(given, argument, amount, &told.answer);
    expect(MOVE_HOUR, got.answer, told.answer, same_results(&got, &told) && !memcmp(&hour, &given, sizeof hour));
    return got.hour;
}

/* from the start by set and move, in any order: the record of its phases */
static surfgimlet_hour reached(void)
{
    surfgimlet_hour hour = start_hour(), afresh;
    for (uint64_t left = below(6); left > 0; left--) hour = one_in(5) ? set_hour() : move_hour(hour);
    afresh = model_set_hour(hour.phases);
    if (memcmp(&hour, &afresh, sizeof hour)) { differences++; puts("an hour that was reached is not that of its phases"); }
    return hour;
}

/* written by hand: any values, one throughout, those of the largest sums, eighths, whose sums are often halves, or the phases' own but for a few */
static surfgimlet_hour by_hand(void)
{
    surfgimlet_hour hour = model_set_hour(phases());
    uint64_t how = below(5);
    int32_t throughout = signed_32();
    int up = one_in(2);
    for (int i = 0; i < 49; i++) {
        int32_t *cosine = &hour.cosines[i], *sine = &hour.sines[i], one = model_lines[i].one, two = model_lines[i].two;
        switch (how) {
        case 0: *cosine = signed_32(); *sine = signed_32(); break;
        case 1: *cosine = *sine = throughout; break;
        case 2:
            *cosine = (one > 0) == up ? INT32_MAX : INT32_MIN;
            *sine = ((two > 0) == (i < 26)) == up ? INT32_MAX : INT32_MIN;
            break;
        case 3: *cosine = ((int32_t)below(32) - 16) * (1 << 27); *sine = ((int32_t)below(32) - 16) * (1 << 27); break;
        default: if (one_in(16)) *(one_in(2) ? cosine : sine) = signed_32();
        }
    }
    return hour;
}

static surfgimlet_hour any_hour(void) { return one_in(3) ? by_hand() : one_in(3) ? reached() : set_hour(); }

static int beyond(int64_t x) { return x < -LIMIT || x > LIMIT; }

/* counts the events of a solid tide on c and s, which the model leaves as c2 and s2 */
static void meet(uint32_t n, lent *c, lent *s, lent *c2, lent *s2, surfgimlet_body moon, surfgimlet_body sun, uint32_t love, uint64_t chosen, uint32_t told)
{
    model_direction d;
    uint32_t of_moon = model_see(moon, &d), of_sun = model_see(sun, &d), of_one;
    int64_t dc[13] = {0}, ds[13] = {0};
    int left = 0, between = 0;
    if (told == 100) {
        int faulty = model_field(n, entries(c), c->length, entries(s), s->length) != 0;
        met[MOON_KIND] += faulty && love < 2 && sun.kind < 2;
        met[SUN_KIND] += faulty && love < 2 && moon.kind < 2;
        return;
    }
    of_one = model_step_one(dc, ds, moon, sun, love);
    met[FIELD_AND_14] += (told == 1 || told == 2) && chosen >> 49;
    met[MOON_AND_14] += told == 14 && of_moon;
    met[SUN_AND_14] += told == 14 && !of_moon && of_sun;
    met[SIX_AND_14] += told == 14 && of_one == 6;
    met[MOON_ABOVE_SUN] += told == of_moon && of_sun && of_sun < of_moon;
    if (told > 2 && told < 6 && !of_moon) met[SUN_3 + told - 3]++;
    for (int i = 0; told == 0 && i < 13; i++) {
        int64_t now[2] = {entries(c2)[i], entries(s2)[i]}, after_one[2] = {entries(c)[i] + dc[i], entries(s)[i] + ds[i]};
        for (int k = 0; k < 2; k++) {
            left |= beyond(now[k]);
            between |= beyond(after_one[k]) && !beyond(now[k]);
        }
    }
    met[LEFT_BEYOND] += left;
    met[BETWEEN_BEYOND] += between;
}

/* counts the events of an ocean tide */
static void meet_lines(uint32_t n, const uint8_t *bytes, size_t length, uint32_t told)
{
    model_sheet t;
    if (told == 100 || model_layout(bytes, length, &t)) return;
    met[FIELD_AND_16] += (told == 1 || told == 2) && model_values(&t) && model_twins(&t);
    met[EIGHT_AND_16] += told == 8 && model_twins(&t);
    met[NINE_AND_16] += told == 16 && model_beyond(&t, n);
    for (size_t j = 1; (told == 16 || told == 0) && j < t.lines; j++)
        for (size_t i = 0; i < j; i++) {
            int differ = 0, apart = 0, ends = i == 0 && j + 1 == t.lines;
            for (int k = 0; k < 6; k++) {
                int by = abs((int8_t)t.line[6 * i + k] - (int8_t)t.line[6 * j + k]);
                differ += by != 0;
                apart += by;
            }
            if (differ > 1) continue;
            met[TWIN_ENDS] += apart == 0 && ends;
            met[TWIN_NEIGHBOURS] += apart == 0 && j == i + 1;
            met[TWINS_ELSEWHERE] += apart == 0 && j > i + 1 && !ends;
            met[TWINS_OF_128] += apart == 0 && t.lines == 128;
            met[OFF_BY_1] += told == 0 && apart == 1;
            met[OFF_BY_26] += told == 0 && apart == 26;
        }
}

static void over_field(int call)
{
    static lent c, s, c2, s2;
    static uint8_t bytes[70000], kept[70000];
    results got = fresh(), as_told = fresh();
    uint32_t n = field(&c, &s), answer, told;
    memcpy(&c2, &c, sizeof c); memcpy(&s2, &s, sizeof s);
    if (call == OCEAN_TIDE) {
        size_t length = one_in(20) ? tie_sheet(bytes) : sheet(bytes);
        const uint8_t *b = length ? at_the_edge(bytes, length) : NULL;
        surfgimlet_phases f = phases();
        uint32_t frame = choice(2);
        memcpy(kept, bytes, length);
        answer = surfgimlet_ocean_tide(n, or_null(&c), c.length, or_null(&s), s.length, b, length, f, frame);
        told = model_ocean_tide(n, entries(&c2), c2.length, entries(&s2), s2.length, kept, length, f, frame);
        meet_lines(n, kept, length, told);
        if (length && memcmp(b, kept, length)) { differences++; puts("ocean_tide: the sheet is changed"); }
    } else if (call == OWN_LINES) {
        static lent_records lines;
        const surfgimlet_own_line *at;
        surfgimlet_phases f = phases();
        size_t length;
        if (one_in(40)) to_a_tie(&lines, &f);
        else records(&lines);
        length = (1 + lines.count) * sizeof *at; /* the guard before them too */
        at = at_the_edge(lines.all, length);
        answer = surfgimlet_own_lines(n, or_null(&c), c.length, or_null(&s), s.length, lines.count || one_in(2) ? at + 1 : NULL, lines.count, f);
        told = model_own_lines(n, entries(&c2), c2.length, entries(&s2), s2.length, lines.all + 1, lines.count, f);
        if (memcmp(at, lines.all, length)) { differences++; puts("own_lines: the records are changed"); }
    } else if (call == POLE_TIDE) {
        int64_t xp = offset(), yp = offset();
        uint32_t love = choice(2);
        if (one_in(8)) to_a_half_offset(&xp, &yp);
        else if (one_in(8)) { to_a_half_offset(&yp, &xp); xp = -xp; }
        answer = surfgimlet_pole_tide(n, or_null(&c), c.length, or_null(&s), s.length, xp, yp, love);
        told = model_pole_tide(n, entries(&c2), c2.length, entries(&s2), s2.length, xp, yp, love);
    } else {
        surfgimlet_body moon = body(3.8e8, 0.0123), sun = body(1.5e11, 332946);
        surfgimlet_hour hour = any_hour(), given;
        uint32_t love = choice(2);
        uint64_t chosen = selection();
        if (one_in(40)) to_a_tie_of_lines(&hour, &chosen);
        given = hour;
        if (one_in(2)) to_a_half(&moon, &sun, love);
        if (one_in(10)) to_the_bound(&moon, &sun, love);
        told = model_solid_tide(n, entries(&c2), c2.length, entries(&s2), s2.length, moon, sun, love, given, chosen, &as_told.lines);
        meet(n, &c, &s, &c2, &s2, moon, sun, love, chosen, told);
        answer = surfgimlet_solid_tide(n, or_null(&c), c.length, or_null(&s), s.length, moon, sun, love, hour, chosen, &got.lines);
        if (memcmp(&hour, &given, sizeof hour)) { differences++; puts("solid_tide: the hour is changed"); }
    }
    expect(call, answer, told, same(&c, &c2) && same(&s, &s2) && same_results(&got, &as_told));
}

/* sine and cosine in their units, read from a sheet of 16 tides of 4 times the wave of tau, 2^24 counts each; every second phase lies
 * near an odd eighth's start, where the last terms of the recipe weigh most */
static void waves(long count)
{
    uint8_t bytes[2 + 6 + 2 + 16 * 4 + 2 + 2 + 16 * 16] = {1, 0, 1}, *at = put16(bytes + 8, 16);
    for (int k = 0; k < 16; k++) at = put32(at, 4000000);
    at = put16(at, 1);
    *at++ = 2; *at++ = 2;
    for (int k = 0; k < 16; k++) at = put32(put32(put32(put32(at, 1 << 24), 0), 0), 1 << 24);
    for (long i = 0; i < count; i++) {
        int64_t c[15] = {0}, s[15] = {0}, c2[15] = {0}, s2[15] = {0};
        surfgimlet_phases b = {0, 0, 0, 0, 0, 0};
        uint32_t answer;
        b.tau = (uint32_t)any();
        if (i & 1) b.tau = ((b.tau >> 29 | 1) << 29) + (uint32_t)within(1 << 27);
        answer = surfgimlet_ocean_tide(4, c, 15, s, 15, bytes, sizeof bytes, b, 0);
        c2[5] = model_cosine(b.tau); s2[5] = model_sine(b.tau);
        expect(OCEAN_TIDE, answer, 0, !memcmp(c, c2, sizeof c) && !memcmp(s, s2, sizeof s));
    }
}

static uint32_t a_number(void)
{
    switch (below(4)) {
    case 0: return model_lines[below(49)].number;
    case 1: return model_lines[below(49)].number + (uint32_t)within(11);
    case 2: return (uint32_t)below(1000020);
    default: return one_in(2) ? (uint32_t)any() : 999998 + (uint32_t)below(4);
    }
}

static void alone(int call)
{
    results got = fresh(), told = fresh();
    uint32_t answer, number;
    if (call == MOVE_C20) {
        int64_t c20 = one_in(8) ? bad_entry() : entry();
        uint32_t from = choice(3), to = choice(3), love = choice(2);
        answer = surfgimlet_move_c20(c20, from, to, love, &got.moved);
        number = model_move_c20(c20, from, to, love, &told.moved);
    } else if (call == MULTIPLIERS_OF) {
        uint32_t given = a_number();
        answer = surfgimlet_multipliers_of(given, got.multipliers);
        number = model_multipliers_of(given, told.multipliers);
    } else if (call == NUMBER_OF) {
        int32_t m[6];
        m[0] = (int32_t)below(10);
        for (int i = 1; i < 6; i++) m[i] = (int32_t)below(10) - 5;
        if (one_in(4)) m[below(6)] = one_in(2) ? (int32_t)within(11) : (int32_t)any();
        answer = surfgimlet_number_of(m, &got.number);
        number = model_number_of(m, &told.number);
    } else {
        uint32_t given = a_number();
        answer = surfgimlet_find_line(given, &got.index, &got.first, &got.second);
        number = model_find_line(given, &told.index, &told.first, &told.second);
    }
    expect(call, answer, number, same_results(&got, &told));
}

int main(int argc, char **argv)
{
    static const int numbers[CALLS][12] = {{0, 1, 2, 3, 4, 5, 6, 14, 100, -1}, {0, 1, 2, 12, 13, -1}, {0, 1, 2, 15, 100, -1},
        {0, 1, 2, 7, 8, 16, 9, 100, -1}, {0, 2, 100, -1}, {0, 10, -1}, {0, 10, -1}, {0, 10, 11, -1}, {0, -1}, {0, -1}, {0, 100, -1}};
    long count = argc > 1 ? atol(argv[1]) : 1000000, missing = 0;
    if (surfgimlet_all_lines() != (UINT64_C(1) << 49) - 1 || surfgimlet_major_lines() != model_major_lines()) {
        differences++;
        puts("a profile differs");
    }
    waves(200000);
    for (long i = 0; i < count; i++) {
        uint64_t pick = below(29);
        if (pick < 9) over_field(OCEAN_TIDE);
        else if (pick < 16) over_field(SOLID_TIDE);
        else if (pick < 20) over_field(OWN_LINES);
        else if (pick < 22) over_field(POLE_TIDE);
        else if (pick < 24) move_hour(one_in(2) ? by_hand() : reached());
        else alone(MOVE_C20 + (int)below(4));
    }
    for (int call = 0; call < CALLS; call++) {
        printf("fuzz: %s answered", names[call]);
        for (const int *k = numbers[call]; *k >= 0; k++) {
            printf(" %d %ld times,", *k, answered[call][*k]);
            missing += answered[call][*k] == 0;
        }
        puts("");
    }
    for (int i = 0; i < EVENTS; i++) {
        printf("fuzz: %s, %s: %ld times\n", names[i < OF_OCEAN ? SOLID_TIDE : OCEAN_TIDE], events[i], met[i]);
        missing += met[i] == 0;
    }
    for (int i = 0; i < ROUNDINGS; i++) {
        printf("fuzz: exact halves of %s: %ld above zero, %ld below\n", rounded[i], model_halves[i][0], model_halves[i][1]);
        missing += (model_halves[i][0] == 0) + (model_halves[i][1] == 0);
    }
    printf("fuzz: 200000 waves, %ld inputs, %ld differences, %ld answers, events or halves never met\n", count, differences, missing);
    return differences != 0 || missing != 0;
}
