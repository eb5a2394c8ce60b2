/* Holds best.c and files.c to the unit on many inputs, then times each call of the unit, of these two by each compiler, of an earlier archive where one is
 * given, and of doubles.c, in turn, and keeps the fastest of many rounds of each: what others do on the machine only adds. */
#define _POSIX_C_SOURCE 200809L
#include <math.h>
#include <stdarg.h>
#include <stdio.h>
#include <stdlib.h>
#include <string.h>
#include <time.h>
#include "bench.h"

#define SIZE 1891
#define ROUNDS 300
#define CALLS 120000
#define FILES 12000

/* ANEW is the solid tide, its hour set in front of it; TWINS the ocean tide of a sheet with twin lines; the last three are of files */
enum { SOLID, OWN, POLE, OCEAN, SET, MOVE, KINDS, ANEW = KINDS, TWINS, WRITE, READ, HEAD };

/* what a call is given */
static uint32_t n, choice;
static surfgimlet_phases phases = {123456789, 2345678901u, 3456789012u, 456789012, 1567890123, 2678901234u};
static surfgimlet_body moon = {SURFGIMLET_DIRECTION, 0.0123, 0.6, 0.48, 0.64, 3.8e8};
static surfgimlet_body sun = {SURFGIMLET_RECTANGULAR, 332946, 9e10, 7.2e10, -9.6e10, 1.5e11};
static double radians[6];
static surfgimlet_hour hour;
static doubles_hour hour_d;
static uint32_t argument;
static int32_t amount;
static double radians_more;
static uint64_t selection;
static surfgimlet_own_line lines[70];
static size_t lines_length;
static int64_t xp, yp;
static double arcseconds[2];
static uint8_t sheet[70000];
static size_t length;
static int64_t c[SIZE], s[SIZE];
static double cd[SIZE], sd[SIZE];
static uint32_t answer, named;

/* a field that is written, beside what its file says; a file that is read, and what it says */
typedef struct { uint64_t constant, radius; uint32_t degree, system; } saying;
static int64_t c_given[SIZE], s_given[SIZE];
static saying given, told;
static uint8_t out[SURFGIMLET_FILE_BYTES(60)], text[140000];
static size_t out_length, written, text_length;

/* ---- the ways */

/* where set is 0 the solid tide is that of phases, and where this is 0 too the two steps; version is an earlier archive's */
typedef struct {
    const char *name;
    start_call *start; set_call *set; move_call *move; solid_call *solid; own_call *own; pole_call *pole; ocean_call *ocean;
    write_call *write; read_call *read; head_call *head;
    phases_call *of_phases; step_one_call *one; step_two_call *two;
    version_call *version;
} way;

static const way ways[] = {
    {"unit", surfgimlet_start_hour, surfgimlet_set_hour, surfgimlet_move_hour, surfgimlet_solid_tide, surfgimlet_own_lines, surfgimlet_pole_tide,
     surfgimlet_ocean_tide, surfgimlet_write_field, surfgimlet_read_field, surfgimlet_file_head, 0, 0, 0, 0},
    {"gcc", gcc_start_hour, gcc_set_hour, gcc_move_hour, gcc_solid_tide, gcc_own_lines, gcc_pole_tide, gcc_ocean_tide, gcc_write_field, gcc_read_field,
     gcc_file_head, 0, 0, 0, 0},
#ifdef WITH_CLANG
    {"clang", clang_start_hour, clang_set_hour, clang_move_hour, clang_solid_tide, clang_own_lines, clang_pole_tide, clang_ocean_tide, clang_write_field,
     clang_read_field, clang_file_head, 0, 0, 0, 0},
#endif
#ifdef WITH_EARLIER
    {"earlier", earlier_surfgimlet_start_hour, earlier_surfgimlet_set_hour, earlier_surfgimlet_move_hour, earlier_surfgimlet_solid_tide,
     earlier_surfgimlet_own_lines, earlier_surfgimlet_pole_tide, earlier_surfgimlet_ocean_tide, earlier_surfgimlet_write_field, earlier_surfgimlet_read_field,
     earlier_surfgimlet_file_head, earlier_solid_tide_of_phases, earlier_surfgimlet_step_one, earlier_surfgimlet_step_two, earlier_surfgimlet_version},
#endif
};
#define WAYS ((int)(sizeof ways / sizeof *ways))
#define DOUBLES WAYS
#ifdef WITH_EARLIER
#define EARLIER (WAYS - 1)
#else
#define EARLIER WAYS
#endif

static int of_files(int what) { return what == WRITE || what == READ || what == HEAD; }

/* an earlier archive may be without the pole tide, make the solid tide of phases or in two steps, and so keep no hour, accept twin lines, and know no files,
 * which doubles.c leaves out too */
static int has(int by, int what)
{
    if (by == DOUBLES) return !of_files(what);
    if (of_files(what)) return ways[by].read != 0;
    if (what == POLE) return ways[by].pole != 0;
    if (what == SET || what == MOVE) return ways[by].set != 0;
    return what != TWINS || !ways[by].version || ways[by].version() >= 4001000;
}

static int of_phases(int by, int what) { return (what == SOLID || what == ANEW) && by != DOUBLES && !ways[by].set; }
static int in_two_steps(int by, int what) { return of_phases(by, what) && !ways[by].of_phases; }

static size_t size_of(uint32_t degree) { return (size_t)(degree + 1) * (degree + 2) / 2; }

static void call(int what, int by)
{
    size_t size = size_of(n);
    if (by == DOUBLES) {
        if (what == SET || what == ANEW) doubles_set_hour(&hour_d, radians);
        if (what == SOLID || what == ANEW) doubles_solid_tide(cd, sd, moon, sun, choice, &hour_d, selection);
        else if (what == MOVE) doubles_move_hour(&hour_d, argument, radians_more);
        else if (what == OWN) answer = doubles_own_lines(cd, sd, lines, lines_length, radians);
        else if (what == POLE) doubles_pole_tide(cd, sd, arcseconds[0], arcseconds[1], choice);
        else if (what == OCEAN || what == TWINS) answer = doubles_ocean_tide(n, cd, sd, sheet, length, radians, choice);
    } else if (in_two_steps(by, what)) {
        answer = ways[by].one(n, c, size, s, size, moon, sun, choice);
        if (!answer) answer = ways[by].two(n, c, size, s, size, phases, choice, selection, &named);
    } else if (of_phases(by, what)) {
        answer = ways[by].of_phases(n, c, size, s, size, moon, sun, choice, phases, selection, &named);
    } else if (what == SOLID) {
        answer = ways[by].solid(n, c, size, s, size, moon, sun, choice, hour, selection, &named);
    } else if (what == ANEW) {
        answer = ways[by].solid(n, c, size, s, size, moon, sun, choice, ways[by].set(phases), selection, &named);
    } else if (what == SET) {
        hour = ways[by].set(phases);
        answer = 0;
    } else if (what == MOVE) {
        hour = ways[by].move(hour, argument, amount, &answer);
    } else if (what == OWN) {
        answer = ways[by].own(n, c, size, s, size, lines, lines_length, phases);
    } else if (what == POLE) {
        answer = ways[by].pole(n, c, size, s, size, xp, yp, choice);
    } else if (what == WRITE) {
        answer = ways[by].write(n, c_given, size, s_given, size, given.constant, given.radius, given.system, out, out_length, &written);
    } else if (what == READ) {
        answer = ways[by].read(text, text_length, c, size, s, size, &told.degree, &told.constant, &told.radius, &told.system);
    } else if (what == HEAD) {
        answer = ways[by].head(text, text_length, &told.degree, &told.constant, &told.radius, &told.system);
    } else {
        answer = ways[by].ocean(n, c, size, s, size, sheet, length, phases, choice);
    }
}

/* ---- inputs */

static uint64_t any(uint64_t below)
{
    static uint64_t state = 1;
    uint64_t z = state += UINT64_C(0x9e3779b97f4a7c15);
    z = (z ^ z >> 30) * UINT64_C(0xbf58476d1ce4e5b9);
    z = (z ^ z >> 27) * UINT64_C(0x94d049bb133111eb);
    return (z ^ z >> 31) % below;
}

static int64_t within(int64_t most) { return (int64_t)any(2 * (uint64_t)most + 1) - most; }

static uint8_t *put(uint8_t *at, int64_t x, int bytes)
{
    for (int i = 0; i < bytes; i++) at[i] = (uint8_t)((uint64_t)x >> 8 * i);
    return at + bytes;
}

static void make_lines(int count)
{
    lines_length = (size_t)count;
    for (int i = 0; i < count; i++) {
        int32_t m[5];
        for (int j = 0; j < 5; j++) m[j] = (int32_t)within(13);
        lines[i] = (surfgimlet_own_line){(int32_t)any(3), m[0], m[1], m[2], m[3], m[4], within(100000), within(100000)};
    }
}

/* an end of -most..most, or beyond */
static int64_t any_end(int64_t most)
{
    const int64_t ends[8] = {most, -most, most + 1, -most - 1, INT64_C(1) << 32, INT64_C(1) << 62, INT64_MAX, INT64_MIN};
    return ends[any(8)];
}

/* one field of a record, at an end of its range or beyond */
static void spoil(surfgimlet_own_line *line)
{
    static const int32_t narrow[9] = {0, 2, 3, -1, 13, -13, 14, -14, INT32_MIN};
    int32_t *field[6] = {&line->tau, &line->s, &line->h, &line->p, &line->np, &line->ps};
    uint64_t which = any(8);
    if (which < 6) *field[which] = narrow[any(9)];
    else *(which == 6 ? &line->ip : &line->op) = any_end(100000);
}

/* the selection that names so many: all 49, the 21 major ones, or none */
static void make_selection(int count) { selection = count == 49 ? surfgimlet_all_lines() : count == 21 ? surfgimlet_major_lines() : 0; }

/* all lines, all that the elastic model uses and others, the major ones, most, half, a quarter, one, few or none */
static uint64_t any_selection(void)
{
    uint64_t all = surfgimlet_all_lines(), long_period = (UINT64_C(1) << 47) - (UINT64_C(1) << 26), half = any(all + 1), other = any(all + 1);
    switch (any(8)) {
    case 0: return all;
    case 1: return half | (all ^ long_period);
    case 2: return surfgimlet_major_lines();
    case 3: return half | other;
    case 4: return half;
    case 5: return half & other;
    case 6: return UINT64_C(1) << any(49);
    default: return half & other & any(all + 1) & any(all + 1);
    }
}

/* any 32 bits, every second one an end of the range or about zero */
static int32_t any_value(void)
{
    static const int32_t ends[5] = {INT32_MIN, INT32_MAX, 0, 1, -1};
    return any(2) ? ends[any(5)] : (int32_t)any(UINT64_C(1) << 32);
}

/* the hour of the phases, or one in four written by hand, with any values */
static int by_hand;

static void make_hour(void)
{
    hour = surfgimlet_set_hour(phases);
    by_hand = !any(4);
    for (int i = 0; by_hand && i < 49; i++) { hour.cosines[i] = any_value(); hour.sines[i] = any_value(); }
}

/* An elastic correction is a half at one offset in a hundred. An anelastic one is where 625 xp + 7 yp, or 625 yp - 7 xp, is an odd multiple of 78125:
 * too seldom to be left to chance. */
static void make_offsets(void)
{
    int64_t k = within(1000), half = 125 + 250 * within(3900);
    int which = (int)any(8);
    xp = which == 0 ? half - 7 * k : which == 1 ? 625 * k : within(1000000);
    yp = which == 0 ? 625 * k : which == 1 ? half + 7 * k : within(1000000);
}

static uint8_t *line_at(size_t i) { return sheet + 2 + 6 * i; }

static int is_among(const uint8_t *line, size_t count)
{
    for (size_t i = 0; i < count; i++)
        if (!memcmp(line, line_at(i), 6)) return 1;
    return 0;
}

/* lines that all differ; places from (1,0) on, so that 90 reach degree 12, 30 degree 7 and 6 degree 3 */
static void make_sheet(int lines, int tides, int places)
{
    uint8_t *at = put(sheet, lines, 2);
    for (int i = 0; i < lines; i++, at += 6)
        do for (int k = 0; k < 6; k++) put(at + k, within(13), 1); while (is_among(at, (size_t)i));
    at = put(at, tides, 2);
    for (int i = 0; i < lines * tides; i++) at = put(at, within(4000000 / lines), 4);
    at = put(at, places, 2);
    for (int degree = 1, order = 0, j = 0; j < places; j++, order < degree ? order++ : (degree++, order = 0)) {
        at = put(put(at, degree, 1), order, 1);
        for (int q = 0; q < 4 * tides; q++) at = put(at, (q & 1) && order == 0 ? 0 : within(1 << 24), 4);
    }
    length = (size_t)(at - sheet);
}

static void make_twins(size_t i, size_t j) { memcpy(line_at(j), line_at(i), 6); }

/* two lines made twins, or one in four nearly: the last two, the first and the last, or any two */
static void make_alike(void)
{
    size_t count = sheet[0], i, j;
    if (count < 2) return;
    i = any(2) ? count - 2 : any(count - 1);
    j = i + 1 + any(count - 1 - i);
    if (!any(3)) { i = 0; j = count - 1; }
    make_twins(i, j);
    if (!any(4)) line_at(j)[any(6)]++;
}

typedef struct { surfgimlet_phases phases; double radians[6]; } epoch;

static epoch epoch_at(const uint32_t p[6])
{
    epoch e = {.phases = {p[0], p[1], p[2], p[3], p[4], p[5]}};
    for (int i = 0; i < 6; i++) e.radians[i] = p[i] * (6.283185307179586 / 4294967296.0);
    return e;
}

static epoch any_epoch(void)
{
    uint32_t p[6];
    for (int i = 0; i < 6; i++) p[i] = (uint32_t)any(UINT64_C(1) << 32);
    return epoch_at(p);
}

static void go_to(const epoch *e)
{
    phases = e->phases;
    memcpy(radians, e->radians, sizeof radians);
}

/* the epochs of a row: one for all its calls, the same for all rows, or another at each call, 30 seconds further along an arc or drawn at random */
enum { ONE, ARC, RANDOM };
static epoch one, epochs[1024];
static int epochs_length, epoch_now;

static const uint32_t in_30_seconds[6] = {1440808, 54584, 4083, 461, 219, 0};

static void make_epochs(int kind)
{
    uint32_t p[6] = {0};
    go_to(&one);
    hour = surfgimlet_set_hour(phases);
    doubles_set_hour(&hour_d, radians);
    epochs_length = kind == ONE ? 0 : 1024;
    for (int k = 0; k < epochs_length; k++) {
        for (int i = 0; i < 6; i++) p[i] += in_30_seconds[i];
        epochs[k] = kind == ARC ? epoch_at(p) : any_epoch();
    }
}

/* a move of as much as 30 seconds bring */
static void make_move(uint32_t of)
{
    argument = of;
    amount = (int32_t)in_30_seconds[of];
    radians_more = amount * (6.283185307179586 / 4294967296.0);
}

static void next_epoch(void)
{
    if (epochs_length) go_to(&epochs[epoch_now++ % epochs_length]);
}

static surfgimlet_body any_body(double ratio, double least, double most)
{
    double r = least + (most - least) * (double)any(1 << 30) / (1 << 30), d[3], size = 0, by;
    for (int i = 0; i < 3; i++) { d[i] = (double)within(1 << 30); size += d[i] * d[i]; }
    by = any(2) ? 1 / sqrt(size) : r / sqrt(size);
    return (surfgimlet_body){by * sqrt(size) > 2 ? SURFGIMLET_RECTANGULAR : SURFGIMLET_DIRECTION, ratio, d[0] * by, d[1] * by, d[2] * by, r};
}

/* ---- files */

/* a field of this degree, of the sizes that a real one's coefficients have, and what its file says beside it */
static void make_field(uint32_t degree)
{
    size_t i = 0;
    n = degree;
    for (uint32_t l = 0; l <= degree; l++)
        for (uint32_t m = 0; m <= l; m++, i++) {
            int64_t most = INT64_C(10000000000) / (l * l + 1);
            c_given[i] = within(most);
            s_given[i] = m ? within(most) : 0;
        }
    given = (saying){any(UINT64_C(1) << 50), any(UINT64_C(1) << 40), degree, (uint32_t)any(3)};
    out_length = SURFGIMLET_FILE_BYTES(degree);
}

static void add(const char *format, ...)
{
    va_list values;
    va_start(values, format);
    text_length += (size_t)vsnprintf((char *)text + text_length, sizeof text - text_length, format, values);
    va_end(values);
}

/* eight entries, begun with any of them; the one at fault, of 0..7, is left out or comes twice */
static void add_header(const char *end, int fault)
{
    static const char *const systems[4] = {"tide_free", "zero_tide", "mean_tide", "tide-free"};
    for (uint64_t k = 0, first = any(8); k < 8; k++) {
        int entry = (int)((first + k) % 8), times = entry == fault ? 2 * (int)any(2) : 1;
        for (; times; times--)
            switch (entry) {
            case 0: add("product_type gravity_field%s", end); break;
            case 1: add("modelname x%s", end); break;
            case 2: add("%sgravity_constant\t%llu%s", any(2) ? "earth_" : "", (unsigned long long)given.constant, end); break;
            case 3: add("radius %.3f%s", (double)given.radius * 1e-3, end); break;
            case 4: add("max_degree %u%s", given.degree, end); break;
            case 5: add("errors formal%s", end); break;
            case 6: add("norm fully_normalized%s", end); break;
            case 7: add("tide_system %s%s", systems[given.system], end); break;
            }
    }
}

/* twelve digits, or one in a hundred an exact half of a count */
static void add_coefficient(int64_t count)
{
    if (any(100)) add("\t%.11E", (double)count * 1e-15);
    else add("\t%lld5E-16", (long long)count);
}

/* The field's file as others publish them: exponents with this letter, two columns of errors, lines that end so; one line in fifty is left out. The errors are
 * short, so that a file of degree 60 has at most 131,072 bytes. */
static void make_published(uint8_t letter, const char *end, int fault)
{
    size_t i = 0, from;
    text_length = 0;
    if (any(2)) add("radius of what stands before: comment%sbegin_of_head%s", end, end);
    add_header(end, fault);
    add("end_of_head ==%s", end);
    from = text_length;
    for (uint32_t l = 0; l <= n; l++)
        for (uint32_t m = 0; m <= l; m++, i++) {
            if (!any(50)) continue;
            add("gfc %u %u", l, m);
            add_coefficient(c_given[i]);
            add_coefficient(s_given[i]);
            add(" 1.2E-11 3.4E-11%s", end);
        }
    for (; from < text_length; from++) if (text[from] == 'E') text[from] = letter;
}

enum { WRITTEN, PUBLISHED };

static void make_text(uint32_t style)
{
    size_t size = size_of(n);
    if (style == PUBLISHED) make_published('E', "\n", -1);
    else answer = surfgimlet_write_field(n, c_given, size, s_given, size, given.constant, given.radius, given.system, text, sizeof text, &text_length);
}

/* lines behind the last one: places that are there or above the degree, values in range or far out of it */
static void add_lines(void)
{
    for (uint64_t k = 1 + any(3); k; k--) {
        uint32_t l = (uint32_t)(any(3) ? any(n + 1) : 60 + any(3));
        add("gfc %u %u %s 0\n", l, any(2) ? l : 0, any(3) ? "1" : any(2) ? "-2e3" : "1D400");
    }
}

/* up to three bytes made others that numbers, words and lines have, or 0 */
static void change_bytes(void)
{
    static const char bytes[] = "0123456789.+-eEdDxXnaig \t\n\r\v_";
    for (uint64_t k = 1 + any(3); k; k--) text[any(text_length)] = (uint8_t)bytes[any(sizeof bytes)];
}

/* a file to be read: one in four as the unit writes it, the others as published; each fault in some */
static void make_any_text(void)
{
    int fault = any(16) ? -1 : (int)any(8);
    if (!any(4)) {
        make_text(WRITTEN);
    } else {
        if (!any(8)) given.degree = (uint32_t)(any(2) ? 61 + any(3) : any(64));
        if (!any(8)) given.system = 3;
        if (!any(8)) (any(2) ? c_given : s_given)[any(size_of(n))] = (any(2) ? 1 : -1) * ((int64_t)1 << (61 + any(2)));
        make_published(any(4) ? 'E' : 'D', any(2) ? "\n" : "\r\n", fault);
    }
    if (!any(8)) add_lines();
    if (!any(8)) change_bytes();
    if (!any(32)) text_length = any(text_length);
    if (!any(64)) { memset(text + text_length, ' ', sizeof text - text_length); text_length = 131072 + any(2); }
}

/* a field to be written, with entries of every size; each fault in some */
static void make_any_field(void)
{
    for (int k = 0; k < 4; k++) c_given[k] = within((int64_t)1 << (30 + 10 * k));
    if (!any(8)) (any(2) ? c_given : s_given)[any(size_of(n))] = (any(2) ? 1 : -1) * (((int64_t)1 << 60) + within(1));
    if (!any(8)) out_length -= any(2);
    if (!any(16)) given.system = 3;
    if (!any(16)) n = any(2) ? 3 : 61;
}

/* ---- best.c and files.c held to the unit, and the earlier archive compared with it */

static long earlier_compared, earlier_differs;

/* The two steps refuse in another order, and the second also what the first has left outside the range: they are compared where the unit accepts and leaves
 * every entry 2^20 within it, more than the lines add. */
static int comparable(uint32_t unit, const int64_t *c_unit, const int64_t *s_unit)
{
    int64_t most = (INT64_C(1) << 60) - (1 << 20);
    if (unit) return 0;
    for (size_t k = 0; k < SIZE; k++)
        if (c_unit[k] < -most || c_unit[k] > most || s_unit[k] < -most || s_unit[k] > most) return 0;
    return 1;
}

/* the unit's answer, which best.c's is */
static uint32_t hold(int what)
{
    static int64_t c_before[SIZE], s_before[SIZE], c_unit[SIZE], s_unit[SIZE];
    surfgimlet_hour hour_before = hour, hour_unit;
    uint32_t unit, named_before = (uint32_t)any(UINT64_C(1) << 32), named_unit;
    memcpy(c_before, c, sizeof c);
    memcpy(s_before, s, sizeof s);
    named = named_before;
    call(what, 0);
    unit = answer;
    named_unit = named;
    hour_unit = hour;
    memcpy(c_unit, c, sizeof c);
    memcpy(s_unit, s, sizeof s);
    for (int by = 1; by < WAYS; by++) {
        if (!has(by, unit == 16 ? TWINS : what) || of_phases(by, what) && by_hand || in_two_steps(by, what) && !comparable(unit, c_unit, s_unit)) continue;
        if (by == EARLIER) earlier_compared++;
        memcpy(c, c_before, sizeof c);
        memcpy(s, s_before, sizeof s);
        named = named_before;
        hour = hour_before;
        call(what, by);
        if (answer == unit && named == named_unit && !memcmp(c, c_unit, sizeof c) && !memcmp(s, s_unit, sizeof s)
            && !memcmp(&hour, &hour_unit, sizeof hour)) continue;
        if (by == EARLIER) {
            earlier_differs++;
        } else {
            printf("best.c by %s differs from the unit: call %d, N = %u, choice %u, selection %#llx, argument %u, amount %d, offsets %lld and %lld, "
                   "answers %u and %u, lines %u and %u\n", ways[by].name, what, n, choice, (unsigned long long)selection, argument, amount, (long long)xp,
                   (long long)yp, answer, unit, named, named_unit);
            exit(1);
        }
    }
    return unit;
}

static int near(int64_t x, int64_t y)
{
    uint64_t apart = x < y ? (uint64_t)y - (uint64_t)x : (uint64_t)x - (uint64_t)y, size = x < 0 ? -(uint64_t)x : (uint64_t)x;
    return apart <= 1 + (size >> 51);
}

static long counts_read, counts_apart;

/* whether both lists are near the unit's */
static int as_read(const int64_t *c_unit, const int64_t *s_unit)
{
    int all = 1;
    for (size_t k = 0; k < SIZE; k++) {
        all &= near(c_unit[k], c[k]) & near(s_unit[k], s[k]);
        counts_apart += (c[k] != c_unit[k]) + (s[k] != s_unit[k]);
    }
    return all;
}

static int as_told(saying unit)
{
    return told.degree == unit.degree && told.system == unit.system && near((int64_t)unit.constant, (int64_t)told.constant)
        && near((int64_t)unit.radius, (int64_t)told.radius);
}

/* The unit's answer, which files.c's is, with the same text. What it reads is near the unit's: a count may be one beside it, and where it has more than 51 bits
 * as much more as a double of its size leaves open. */
static uint32_t hold_file(int what)
{
    static int64_t c_before[SIZE], s_before[SIZE], c_unit[SIZE], s_unit[SIZE];
    static uint8_t out_before[sizeof out], out_unit[sizeof out];
    saying told_before = told, told_unit;
    size_t written_before = written, written_unit;
    uint32_t unit;
    memcpy(c_before, c, sizeof c);
    memcpy(s_before, s, sizeof s);
    memcpy(out_before, out, sizeof out);
    call(what, 0);
    unit = answer;
    told_unit = told;
    written_unit = written;
    memcpy(c_unit, c, sizeof c);
    memcpy(s_unit, s, sizeof s);
    memcpy(out_unit, out, sizeof out);
    for (int by = 1; by < WAYS; by++) {
        int same;
        if (!has(by, what)) continue;
        memcpy(c, c_before, sizeof c);
        memcpy(s, s_before, sizeof s);
        memcpy(out, out_before, sizeof out);
        told = told_before;
        written = written_before;
        call(what, by);
        same = answer == unit && written == written_unit && !memcmp(out, out_unit, sizeof out);
        if (by == EARLIER) {
            earlier_compared++;
            earlier_differs += !(same && !memcmp(&told, &told_unit, sizeof told) && !memcmp(c, c_unit, sizeof c) && !memcmp(s, s_unit, sizeof s));
            continue;
        }
        if (what == READ && !unit) counts_read += 2 * (long)size_of(n);
        if (!same || !as_told(told_unit) || !as_read(c_unit, s_unit)) {
            printf("files.c by %s differs from the unit: call %d, N = %u, answers %u and %u, degrees %u and %u, of the text\n%.*s\n", ways[by].name, what, n,
                   answer, unit, told.degree, told_unit.degree, (int)text_length, (const char *)text);
            exit(1);
        }
    }
    return unit;
}

/* a third of the calls of each kind; some have two things at fault, so that the order shows */
static void hold_files(void)
{
    static const uint32_t degrees[5] = {4, 5, 6, 12, 60}, numbers[] = {0, 1, 2, 17, 18, 19, 20, 21, 100};
    long refused[101] = {0};
    for (long i = 0; i < FILES; i++) {
        int what = WRITE + (int)(i % 3);
        make_field(degrees[any(50) ? any(4) : 4]);
        if (what == WRITE) make_any_field();
        else make_any_text();
        if (what == READ && !any(16)) n = any(2) ? 4 : 12;
        refused[hold_file(what)]++;
    }
    for (size_t k = 0; k < sizeof numbers / sizeof *numbers; k++)
        if (!refused[numbers[k]]) { printf("files.c: no call was answered %u\n", numbers[k]); exit(1); }
    printf("files.c: the unit's answers and texts on %d calls; of the counts read %ld in %ld are another, next to the unit's; answered", FILES, counts_apart,
           counts_read);
    for (int i = 0; i <= 100; i++) if (refused[i]) printf(" %d: %ld", i, refused[i]);
    puts("");
}

/* one thing at fault, where the call reads it: an entry, a float of a body, a byte of the sheet, its length, the Moon's mass, a record, the selection,
 * one offset or both, a body's kind, two lines of the sheet */
static void spoil_any(void)
{
    static const double floats[8] = {0, -1, 1e8, 1e12, 1e160, -0.0, 1e6, 2.5e11};
    int64_t edge = (int64_t)1 << 60;
    switch (any(13)) {
    case 0: (any(2) ? c : s)[any(size_of(4))] = (any(2) ? edge : -edge) + within(1); break;
    case 1: *(&(any(2) ? &moon : &sun)->ratio + any(5)) = any(4) ? floats[any(8)] : any(2) ? NAN : INFINITY; break;
    case 2: sheet[any(length + 1)] = (uint8_t)any(256); break;
    case 3: if (length) length += (size_t)within(1); break;
    case 4: moon = any_body((double)(100000 + any(900001)), 1e8, 1.5e8); break;
    case 5: if (lines_length) spoil(&lines[any(lines_length)]); break;
    case 6: selection |= UINT64_C(1) << (49 + any(15)); break;
    case 7: xp = any_end(1000000); break;
    case 8: xp = any_end(1000000); yp = any_end(1000000); break;
    case 9: yp = any_end(1000000); break;
    case 10: (any(2) ? &moon : &sun)->kind = 1 + (uint32_t)any(2); break;
    case 11: make_alike(); break;
    }
}

/* accepted calls, and calls with something at fault: N, the choice, and what spoil_any takes, twice in a quarter of the calls, so that the order shows */
static void hold_all(void)
{
    static const uint32_t degrees[6] = {4, 12, 60, 7, 3, 61}, numbers[] = {0, 1, 2, 3, 4, 5, 6, 7, 8, 9, 12, 13, 14, 15, 16, 100};
    long refused[101] = {0};
    hour = surfgimlet_start_hour();
    for (int by = 1; by < EARLIER; by++) {
        surfgimlet_hour start = ways[by].start();
        if (memcmp(&start, &hour, sizeof hour)) { printf("best.c by %s starts from another hour than the unit\n", ways[by].name); exit(1); }
    }
    for (long i = 0; i < CALLS; i++) {
        int what = (int)(i % KINDS);
        int64_t edge = (int64_t)1 << 60;
        n = degrees[any(100) ? any(4) : any(6)];
        choice = (uint32_t)any(40) ? (uint32_t)any(2) : 2;
        for (size_t k = 0; k < SIZE; k++) { c[k] = within(edge); s[k] = within(edge); }
        one = any_epoch();
        go_to(&one);
        moon = any_body(0.0123, 3e8, 4e8);
        sun = any_body(any(20) ? 332946 : 1e5, any(20) ? 1.4e11 : 1e8, 1.5e11);
        if (what == OCEAN) make_sheet(1 + (int)any(any(4) ? 20 : 128), 1 + (int)any(4), (int)any(16));
        if (what == OWN) make_lines(any(8) ? (int)any(65) : 60 + (int)any(11));
        if (what == SOLID) selection = any_selection();
        if (what == SOLID || what == MOVE) make_hour();
        if (what == MOVE) { argument = (uint32_t)any(8); amount = any_value(); }
        if (what == POLE) make_offsets();
        spoil_any();
        if (!any(4)) spoil_any();
        refused[hold(what)]++;
    }
    by_hand = 0;
    for (size_t k = 0; k < sizeof numbers / sizeof *numbers; k++)
        if (!refused[numbers[k]]) { printf("best.c: no call was answered %u\n", numbers[k]); exit(1); }
    printf("best.c: the unit's answers, counts, hours and numbers of lines on %d calls; answered", CALLS);
    for (int i = 0; i <= 100; i++) if (refused[i]) printf(" %d: %ld", i, refused[i]);
    if (EARLIER < WAYS) {
        printf("\nthe earlier archive: other answers, counts, hours or numbers of lines than the unit's on %ld of %ld of them", earlier_differs, earlier_compared);
        if (of_phases(EARLIER, SOLID)) printf(", its solid tide compared where the hour is that of its phases");
        if (in_two_steps(EARLIER, SOLID)) printf(", its two steps compared where the unit accepts the solid tide and leaves every entry 2^20 within the range");
        if (!has(EARLIER, POLE)) printf(", the pole tide's left out, since it has none");
        if (!has(EARLIER, SET)) printf(", the hour's left out, since it keeps none");
        if (!has(EARLIER, TWINS)) printf(", those refused with 16 left out, since it accepts twin lines");
        if (!has(EARLIER, READ)) printf(", those of files left out, since it knows none");
    }
    puts("\n");
}

/* ---- times */

static double now(void)
{
    struct timespec t;
    clock_gettime(CLOCK_MONOTONIC, &t);
    return t.tv_sec * 1e9 + t.tv_nsec;
}

/* a round of a call: entries start at 0, so that none leaves its range */
static void time_once(int what, int by, double *best)
{
    double from, each;
    long times;
    memset(c, 0, sizeof c);
    memset(s, 0, sizeof s);
    from = now();
    call(what, by);
    times = 1 + (long)(1e5 / (now() - from + 1));
    from = now();
    for (long i = 0; i < times; i++) {
        next_epoch();
        call(what, by);
    }
    each = (now() - from) / (double)times;
    if (each < *best) *best = each;
}

static double best_c(const double *best, const char **by)
{
    int least = 1;
    for (int i = 2; i < EARLIER; i++) if (best[i] < best[least]) least = i;
    *by = ways[least].name;
    return best[least];
}

typedef struct { const char *name; int what; int lines, tides, places; uint32_t n, choice; double of_c, of_doubles, of_earlier; int epochs; } row;

/* lines are a sheet's, own ones, or those that the solid tide's selection names; of_c, of_doubles and of_earlier, which is of an archive that accepts twin
 * lines, are the ratios to reach, 0 where none is set; the choice of a move is its argument,
 * that of a file its style */
static const row rows[] = {
    {"ocean 128/32/90", OCEAN, 128, 32, 90, 12, 0, 1.10, 0.90, 1.125, ONE},
    {"ocean 128/32/90", OCEAN, 128, 32, 90, 60, 0, 1.10, 0, 1.125, ONE},
    {"ocean 128/32/90, refused with 9", OCEAN, 128, 32, 90, 11, 0, 0, 0, 0, ONE},
    {"ocean 128/32/90, refused with 16", TWINS, 128, 32, 90, 12, 0, 0, 0, 0, ONE},
    {"ocean 64/8/30", OCEAN, 64, 8, 30, 12, 0, 0, 0, 0, ONE},
    {"ocean 64/8/30", OCEAN, 64, 8, 30, 60, 0, 1.20, 0, 0, ONE},
    {"ocean 8/2/6", OCEAN, 8, 2, 6, 4, 0, 0, 0, 0, ONE},
    {"ocean 8/2/6", OCEAN, 8, 2, 6, 12, 0, 1.25, 0, 0, ONE},
    {"ocean 8/2/6", OCEAN, 8, 2, 6, 60, 0, 0, 0, 0, ONE},
    {"solid tide, hour kept, anelastic", SOLID, 49, 0, 0, 4, 1, 1.15, 0, 0, ONE},
    {"solid tide, hour kept, anelastic", SOLID, 49, 0, 0, 12, 1, 1.15, 0, 0, ONE},
    {"solid tide, hour kept, anelastic", SOLID, 49, 0, 0, 60, 1, 1.15, 0, 0, ONE},
    {"solid tide, hour kept, anelastic, major lines", SOLID, 21, 0, 0, 12, 1, 0, 0, 0, ONE},
    {"solid tide, hour kept, anelastic, no line", SOLID, 0, 0, 0, 12, 1, 0, 0, 0, ONE},
    {"solid tide, hour kept, elastic", SOLID, 49, 0, 0, 4, 0, 1.15, 0, 0, ONE},
    {"solid tide, hour kept, elastic", SOLID, 49, 0, 0, 12, 0, 1.15, 0, 0, ONE},
    {"solid tide, hour kept, elastic", SOLID, 49, 0, 0, 60, 0, 1.15, 0, 0, ONE},
    {"solid tide, hour set anew, anelastic", ANEW, 49, 0, 0, 4, 1, 1.35, 0, 0, ONE},
    {"solid tide, hour set anew, anelastic", ANEW, 49, 0, 0, 12, 1, 1.35, 0.95, 0, ONE},
    {"solid tide, hour set anew, anelastic", ANEW, 49, 0, 0, 60, 1, 1.20, 0, 0, ONE},
    {"solid tide, hour set anew, anelastic, along an arc", ANEW, 49, 0, 0, 4, 1, 0, 0, 0, ARC},
    {"solid tide, hour set anew, anelastic, at random", ANEW, 49, 0, 0, 4, 1, 0, 0, 0, RANDOM},
    {"solid tide, hour set anew, elastic", ANEW, 49, 0, 0, 4, 0, 1.35, 0, 0, ONE},
    {"solid tide, hour set anew, elastic", ANEW, 49, 0, 0, 12, 0, 1.35, 0, 0, ONE},
    {"solid tide, hour set anew, elastic", ANEW, 49, 0, 0, 60, 0, 0, 0, 0, ONE},
    {"set hour", SET, 0, 0, 0, 0, 0, 0, 0, 0, ONE},
    {"set hour, along an arc", SET, 0, 0, 0, 0, 0, 0, 0, 0, ARC},
    {"set hour, at random", SET, 0, 0, 0, 0, 0, 0, 0, 0, RANDOM},
    {"move hour, tau", MOVE, 0, 0, 0, 0, SURFGIMLET_TAU, 0, 0, 0, ONE},
    {"move hour, s", MOVE, 0, 0, 0, 0, SURFGIMLET_S, 0, 0, 0, ONE},
    {"move hour, h", MOVE, 0, 0, 0, 0, SURFGIMLET_H, 0, 0, 0, ONE},
    {"move hour, p", MOVE, 0, 0, 0, 0, SURFGIMLET_P, 0, 0, 0, ONE},
    {"move hour, N'", MOVE, 0, 0, 0, 0, SURFGIMLET_NP, 0, 0, 0, ONE},
    {"move hour, ps", MOVE, 0, 0, 0, 0, SURFGIMLET_PS, 0, 0, 0, ONE},
    {"own lines 64", OWN, 64, 0, 0, 12, 0, 0, 0, 0, ONE},
    {"own lines 64", OWN, 64, 0, 0, 60, 0, 0, 0, 0, ONE},
    {"pole tide, anelastic", POLE, 0, 0, 0, 4, 1, 0, 0, 0, ONE},
    {"pole tide, anelastic", POLE, 0, 0, 0, 12, 1, 0, 0, 0, ONE},
    {"pole tide, anelastic", POLE, 0, 0, 0, 60, 1, 0, 0, 0, ONE},
    {"pole tide, elastic", POLE, 0, 0, 0, 12, 0, 0, 0, 0, ONE},
    {"write field", WRITE, 0, 0, 0, 12, 0, 0, 0, 0, ONE},
    {"write field", WRITE, 0, 0, 0, 60, 0, 0, 0, 0, ONE},
    {"read field, as written", READ, 0, 0, 0, 12, WRITTEN, 0, 0, 0, ONE},
    {"read field, as written", READ, 0, 0, 0, 60, WRITTEN, 0, 0, 0, ONE},
    {"read field, as published", READ, 0, 0, 0, 60, PUBLISHED, 0, 0, 0, ONE},
    {"file head, as published", HEAD, 0, 0, 0, 60, PUBLISHED, 0, 0, 0, ONE},
};

/* a ratio beside the one to reach */
static void put_ratio(double ratio, double most)
{
    if (most > 0) printf(" %.2f | %g%s |", ratio, most, ratio > most ? " above" : "");
    else printf(" %.2f | |", ratio);
}

static void compare(const row *r)
{
    double best[WAYS + 1], c_time;
    const char *by;
    uint32_t unit;
    for (int i = 0; i <= WAYS; i++) best[i] = 1e18;
    n = r->n;
    choice = r->choice;
    if (r->what == OCEAN || r->what == TWINS) make_sheet(r->lines, r->tides, r->places);
    if (r->what == TWINS) make_twins((size_t)r->lines - 2, (size_t)r->lines - 1);
    if (r->what == OWN) make_lines(r->lines);
    if (r->what == SOLID || r->what == ANEW) make_selection(r->lines);
    if (r->what == MOVE) make_move(r->choice);
    if (of_files(r->what)) { make_field(r->n); make_text(r->choice); }
    make_epochs(r->epochs);
    memset(c, 0, sizeof c);
    memset(s, 0, sizeof s);
    answer = unit = of_files(r->what) ? hold_file(r->what) : hold(r->what);
    if (has(DOUBLES, r->what)) call(r->what, DOUBLES);
    if (answer != unit || (unit == 16) != (r->what == TWINS) || of_files(r->what) && unit) { printf("%s: the unit answers %u, doubles %u\n", r->name, unit, answer); exit(1); }
    for (int k = 0; k < ROUNDS; k++)
        for (int i = 0; i <= WAYS; i++) if (has(i, r->what)) time_once(r->what, i, &best[i]);
    c_time = best_c(best, &by);
    printf("| %s |", r->name);
    if (n) printf(" %u", n);
    printf(" | %.0f | %.0f %s |", best[0], c_time, by);
    if (has(DOUBLES, r->what)) printf(" %.0f |", best[DOUBLES]);
    else printf(" |");
    put_ratio(best[0] / c_time, r->of_c);
    if (has(DOUBLES, r->what)) put_ratio(best[0] / best[DOUBLES], r->of_doubles);
    else printf(" | |");
    if (EARLIER < WAYS && has(EARLIER, r->what)) {
        printf(" %.0f |", best[EARLIER]);
        put_ratio(best[0] / best[EARLIER], has(EARLIER, TWINS) ? 0 : r->of_earlier);
    } else if (EARLIER < WAYS) {
        printf(" | | |");
    }
    puts("");
}

/* what one more of something costs: the same call at four sizes, each round taking all of them in turn */
static void grow(const char *what, int kind, const int sizes[4][4], int part)
{
    double best[4][WAYS + 1], more;
    for (int i = 0; i < 4; i++)
        for (int by = 0; by <= WAYS; by++) best[i][by] = 1e18;
    choice = kind == SOLID;
    make_epochs(ONE);
    for (int k = 0; k < ROUNDS; k++)
        for (int i = 0; i < 4; i++) {
            n = (uint32_t)sizes[i][3];
            if (kind == OCEAN) make_sheet(sizes[i][0], sizes[i][1], sizes[i][2]);
            if (kind == OWN) make_lines(sizes[i][0]);
            if (kind == SOLID) make_selection(sizes[i][0]);
            for (int by = 0; by < WAYS; by++) time_once(kind, by, &best[i][by]);
        }
    more = part < 3 ? sizes[3][part] - sizes[0][part] : 2.0 * (double)(size_of((uint32_t)sizes[3][3]) - size_of((uint32_t)sizes[0][3]));
    printf("| %s |", what);
    for (int i = 0; i < 4; i++) printf(" %.0f%s", best[i][0], i < 3 ? "," : " |");
    for (int by = 0; by < WAYS; by++) printf(" %.2f |", (best[3][by] - best[0][by]) / more);
    puts("");
}

int main(void)
{
    static const int by_line[4][4] = {{16, 8, 30, 12}, {32, 8, 30, 12}, {64, 8, 30, 12}, {128, 8, 30, 12}};
    static const int by_tide[4][4] = {{64, 4, 30, 12}, {64, 8, 30, 12}, {64, 16, 30, 12}, {64, 32, 30, 12}};
    static const int by_place[4][4] = {{64, 8, 0, 12}, {64, 8, 30, 12}, {64, 8, 60, 12}, {64, 8, 90, 12}};
    static const int by_own[4][4] = {{8, 0, 0, 12}, {16, 0, 0, 12}, {32, 0, 0, 12}, {64, 0, 0, 12}};
    static const int by_entry[4][4] = {{49, 0, 0, 4}, {49, 0, 0, 12}, {49, 0, 0, 30}, {49, 0, 0, 60}};
    hold_files();
    hold_all();
    one = any_epoch();
    moon = (surfgimlet_body){SURFGIMLET_DIRECTION, 0.0123, 0.6, 0.48, 0.64, 3.8e8};
    sun = (surfgimlet_body){SURFGIMLET_RECTANGULAR, 332946, 9e10, 7.2e10, -9.6e10, 1.5e11};
    xp = 123457;
    yp = -234568;
    arcseconds[0] = 1e-6 * (double)xp;
    arcseconds[1] = 1e-6 * (double)yp;

    puts("Nanoseconds a call, the least of many rounds. A sheet is lines/tides/places.\n");
    printf("| call | N | unit | best C | doubles | unit/C | at most | unit/doubles | at most |%s\n",
           EARLIER < WAYS ? " earlier | unit/earlier | at most |" : "");
    printf("|---|---|---|---|---|---|---|---|---|%s\n", EARLIER < WAYS ? "---|---|---|" : "");
    for (size_t i = 0; i < sizeof rows / sizeof *rows; i++) compare(&rows[i]);

    printf("\n| one more | the unit at four sizes |");
    for (int by = 0; by < WAYS; by++) printf(" %s |", ways[by].name);
    printf("\n|---|---|");
    for (int by = 0; by < WAYS; by++) printf("---|");
    puts("");
    grow("line: 16, 32, 64, 128 of them", OCEAN, by_line, 0);
    grow("tide: 4, 8, 16, 32", OCEAN, by_tide, 1);
    grow("place: 0, 30, 60, 90", OCEAN, by_place, 2);
    grow("own line: 8, 16, 32, 64", OWN, by_own, 0);
    grow("entry: the solid tide, hour kept, at N = 4, 12, 30, 60", SOLID, by_entry, 3);
    return 0;
}
