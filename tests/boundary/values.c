/* Calls every function of the header on the second program's values (values.py), read from standard input. */
#include <inttypes.h>
#include <stdio.h>
#include <stdlib.h>
#include "lent.h"
#include "surfgimlet.h"

#define LEAST 44500 /* cases, so that an input cut short is noticed */
#define MOST_BYTES 200000 /* of a sheet or a file */

/* an hour is a call of its own: start, set and move, in any order */
enum { SOLID_TIDE, OWN_LINES, POLE_TIDE, OCEAN_TIDE, WRITE_FIELD, MOVE_C20, MULTIPLIERS_OF, NUMBER_OF, FIND_LINE, HOUR, ALL_LINES, MAJOR_LINES,
    FILE_HEAD, READ_FIELD, CALLS };
static const char *names[CALLS] = {"solid_tide", "own_lines", "pole_tide", "ocean_tide", "write_field", "move_c20", "multipliers_of", "number_of",
    "find_line", "hour", "all_lines", "major_lines", "file_head", "read_field"};
static const int numbers[CALLS][10] = {{0, 1, 2, 3, 4, 5, 6, 14, 100, -1}, {0, 1, 2, 12, 13, -1},
    {0, 1, 2, 15, 100, -1}, {0, 1, 2, 7, 8, 16, 9, 100, -1}, {0, 1, 2, 21, 100, -1}, {0, 2, 100, -1}, {0, 10, -1}, {0, 10, -1}, {0, 10, 11, -1},
    {0, 100, -1}, {0, -1}, {0, -1}, {0, 17, 18, 19, 20, -1}, {0, 17, 18, 19, 20, 1, -1}};
static long answered[CALLS][101], cases, differences;

static uint32_t n;
static lent c, s, told_c, told_s; /* the field lent, and what it must hold after the call */
static uint8_t file[MOST_BYTES]; /* the file lent */
static size_t file_length;

static int64_t word(void)
{
    int64_t x;
    if (scanf("%" SCNd64, &x) != 1) { puts("values: a word is missing"); exit(1); }
    return x;
}

/* 64 bits: a selection, or those of a float */
static uint64_t bits(void)
{
    uint64_t x;
    if (scanf("%" SCNu64, &x) != 1) { puts("values: a word is missing"); exit(1); }
    return x;
}

static double real(void)
{
    uint64_t b = bits();
    double x;
    memcpy(&x, &b, sizeof x);
    return x;
}

static surfgimlet_phases phases(void)
{
    surfgimlet_phases b;
    b.tau = (uint32_t)word(); b.s = (uint32_t)word(); b.h = (uint32_t)word();
    b.p = (uint32_t)word(); b.np = (uint32_t)word(); b.ps = (uint32_t)word();
    return b;
}

static surfgimlet_hour record(void)
{
    surfgimlet_hour h;
    h.phases = phases();
    for (int i = 0; i < 49; i++) h.cosines[i] = (int32_t)word();
    for (int i = 0; i < 49; i++) h.sines[i] = (int32_t)word();
    return h;
}

/* from the start by steps: phases to set, an argument and the amount it is moved by, or a record written by hand; answer is the last step's */
static surfgimlet_hour hour(uint32_t *answer)
{
    surfgimlet_hour h = surfgimlet_start_hour();
    *answer = 0;
    for (int64_t left = word(); left > 0; left--) {
        int64_t step = word();
        if (step == 1) {
            const surfgimlet_hour given = h;
            uint32_t argument = (uint32_t)word();
            *answer = UINT32_MAX; /* which no call answers */
            h = surfgimlet_move_hour(given, argument, (int32_t)word(), answer);
        } else {
            h = step == 0 ? surfgimlet_set_hour(phases()) : record();
            *answer = 0;
        }
    }
    return h;
}

static surfgimlet_body body(void)
{
    surfgimlet_body b;
    b.kind = (uint32_t)word(); b.ratio = real();
    b.x = real(); b.y = real(); b.z = real(); b.r = real();
    return b;
}

static void records(lent_records *l)
{
    int64_t count = word();
    if (count < 0 || count > MOST_RECORDS) { puts("values: too many records"); exit(1); }
    lend_records(l, (size_t)count);
    for (surfgimlet_own_line *r = l->all + 1; count > 0; count--, r++) {
        r->tau = (int32_t)word(); r->s = (int32_t)word(); r->h = (int32_t)word();
        r->p = (int32_t)word(); r->np = (int32_t)word(); r->ps = (int32_t)word();
        r->ip = word(); r->op = word();
    }
}

/* entries, each after its index */
static void change(lent *l)
{
    for (int64_t left = word(); left > 0; left--) {
        int64_t i = word();
        entries(l)[i] = word();
    }
}

/* a list: its length, the entry that most places have, and the others */
static void list(lent *l)
{
    int64_t most;
    lend(l, (size_t)word());
    most = word();
    for (size_t i = 0; i < l->length; i++) entries(l)[i] = most;
    change(l);
}

static void expect(int call, uint32_t answer, uint32_t number, int as_told)
{
    cases++;
    answered[call][number]++;
    if (answer == number && as_told) return;
    if (differences++ < 20)
        printf("%s, case %ld: answered %" PRIu32 ", told %" PRIu32 "%s\n", names[call], cases, answer, number,
               as_told ? "" : ", and an entry, a record, a byte, a result or a guard differs");
}

/* bytes, after how many there are */
static size_t text(uint8_t *bytes)
{
    static char hex[400001]; /* twice MOST_BYTES */
    size_t length = (size_t)word();
    if (length > MOST_BYTES || scanf("%400000s", hex) != 1) { puts("values: a text is missing or too long"); exit(1); }
    for (size_t i = 0; i < length; i++) {
        char pair[3] = {hex[2 * i], hex[2 * i + 1], 0};
        bytes[i] = (uint8_t)strtoul(pair, NULL, 16);
    }
    return length;
}

static void over_field(int call)
{
    static uint8_t bytes[100000];
    static lent_records lines, kept; /* those lent last */
    results got = fresh(), told = fresh();
    uint32_t choice = call == OWN_LINES ? 0 : (uint32_t)word(), number, answer;
    if (call == SOLID_TIDE) {
        surfgimlet_body moon = body(), sun = body();
        surfgimlet_hour h = hour(&answer);
        got.hour = told.hour = h;
        answer = surfgimlet_solid_tide(n, or_null(&c), c.length, or_null(&s), s.length, moon, sun, choice, got.hour, bits(), &got.lines);
    } else if (call == OWN_LINES) {
        surfgimlet_phases b;
        records(&lines);
        b = phases();
        memcpy(&kept, &lines, sizeof lines);
        answer = surfgimlet_own_lines(n, or_null(&c), c.length, or_null(&s), s.length, lines.count ? lines.all + 1 : NULL, lines.count, b);
    } else if (call == POLE_TIDE) {
        int64_t xp = word(), yp = word();
        answer = surfgimlet_pole_tide(n, or_null(&c), c.length, or_null(&s), s.length, xp, yp, choice);
    } else {
        surfgimlet_phases b = phases();
        size_t length = text(bytes);
        answer = surfgimlet_ocean_tide(n, or_null(&c), c.length, or_null(&s), s.length, length ? bytes : NULL, length, b, choice);
    }
    number = (uint32_t)word();
    if (call == SOLID_TIDE && number == 0) told.lines = (uint32_t)word();
    change(&told_c); change(&told_s);
    expect(call, answer, number, same(&c, &told_c) && same(&s, &told_s) && !memcmp(&lines, &kept, sizeof lines) && same_results(&got, &told));
    memcpy(&c, &told_c, sizeof c); memcpy(&s, &told_s, sizeof s);
}

/* into an output between guards, every byte of which is compared */
static void write_field(void)
{
    static uint8_t out[GUARD + MOST_BYTES + GUARD], wanted[sizeof out];
    results got = fresh(), told = fresh();
    uint32_t system = (uint32_t)word(), answer, number;
    uint64_t constant = bits(), radius = bits();
    size_t room = (size_t)word();
    if (room > MOST_BYTES) { puts("values: too large an output"); exit(1); }
    memset(out, '#', sizeof out); memset(wanted, '#', sizeof wanted);
    answer = surfgimlet_write_field(n, or_null(&c), c.length, or_null(&s), s.length, constant, radius, system, room ? out + GUARD : NULL, room, &got.written);
    number = (uint32_t)word();
    if (number == 0) told.written = text(wanted + GUARD);
    change(&told_c); change(&told_s);
    expect(WRITE_FIELD, answer, number, same(&c, &told_c) && same(&s, &told_s) && !memcmp(out, wanted, sizeof out) && same_results(&got, &told));
}

static void an_hour(void)
{
    results got = fresh(), told = fresh();
    got.hour = hour(&got.answer);
    told.answer = (uint32_t)word();
    told.hour = record();
    expect(HOUR, got.answer, told.answer, same_results(&got, &told));
}

/* the four numbers of a file that is accepted */
static void four(results *told)
{
    told->degree = (uint32_t)word();
    told->constant = bits();
    told->radius = bits();
    told->system = (uint32_t)word();
}

static void file_head(void)
{
    results got = fresh(), told = fresh();
    uint32_t answer = surfgimlet_file_head(file_length ? file : NULL, file_length, &got.degree, &got.constant, &got.radius, &got.system), number;
    number = (uint32_t)word();
    if (number == 0) four(&told);
    expect(FILE_HEAD, answer, number, same_results(&got, &told));
}

static void lend_untouched(lent *l, size_t length)
{
    lend(l, length);
    for (size_t i = 0; i < length; i++) entries(l)[i] = UNTOUCHED;
}

static void read_field(void)
{
    static uint8_t kept[MOST_BYTES];
    results got = fresh(), told = fresh();
    uint32_t answer, number;
    lend_untouched(&c, (size_t)word()); lend_untouched(&s, (size_t)word());
    memcpy(&told_c, &c, sizeof c); memcpy(&told_s, &s, sizeof s);
    memcpy(kept, file, file_length);
    answer = surfgimlet_read_field(file_length ? file : NULL, file_length, or_null(&c), c.length, or_null(&s), s.length, &got.degree, &got.constant,
                                   &got.radius, &got.system);
    number = (uint32_t)word();
    if (number == 0) { four(&told); list(&told_c); list(&told_s); }
    expect(READ_FIELD, answer, number, same(&c, &told_c) && same(&s, &told_s) && same_results(&got, &told) && !memcmp(kept, file, file_length));
}

/* the two selections that are supplied */
static void profile(int call)
{
    uint64_t lines = call == ALL_LINES ? surfgimlet_all_lines() : surfgimlet_major_lines();
    uint32_t number = (uint32_t)word();
    expect(call, 0, number, lines == bits());
}

static void alone(int call)
{
    results got = fresh(), told = fresh();
    uint32_t answer, number;
    if (call == MOVE_C20) {
        int64_t c20 = word();
        uint32_t from = (uint32_t)word(), to = (uint32_t)word(), love = (uint32_t)word();
        answer = surfgimlet_move_c20(c20, from, to, love, &got.moved);
        number = (uint32_t)word();
        if (number == 0) told.moved = word();
    } else if (call == MULTIPLIERS_OF) {
        answer = surfgimlet_multipliers_of((uint32_t)word(), got.multipliers);
        number = (uint32_t)word();
        for (int i = 0; number == 0 && i < 6; i++) told.multipliers[i] = (int32_t)word();
    } else if (call == NUMBER_OF) {
        int32_t m[6];
        for (int i = 0; i < 6; i++) m[i] = (int32_t)word();
        answer = surfgimlet_number_of(m, &got.number);
        number = (uint32_t)word();
        if (number == 0) told.number = (uint32_t)word();
    } else {
        answer = surfgimlet_find_line((uint32_t)word(), &got.index, &got.first, &got.second);
        number = (uint32_t)word();
        if (number == 0) { told.index = (size_t)word(); told.first = word(); told.second = word(); }
    }
    expect(call, answer, number, same_results(&got, &told));
}

int main(void)
{
    long missing = 0;
    char name[32];
    while (scanf("%31s", name) == 1) {
        int call = 0;
        if (!strcmp(name, "field")) {
            n = (uint32_t)word();
            list(&c); list(&s);
            memcpy(&told_c, &c, sizeof c); memcpy(&told_s, &s, sizeof s);
            continue;
        }
        if (!strcmp(name, "file")) {
            file_length = text(file);
            continue;
        }
        while (call < CALLS && strcmp(name, names[call])) call++;
        if (call == CALLS) { printf("values: no call is named %s\n", name); return 1; }
        if (call <= OCEAN_TIDE) over_field(call);
        else if (call == WRITE_FIELD) write_field();
        else if (call <= FIND_LINE) alone(call);
        else if (call == HOUR) an_hour();
        else if (call == FILE_HEAD) file_head();
        else if (call == READ_FIELD) read_field();
        else profile(call);
    }
    for (int call = 0; call < CALLS; call++) {
        printf("values: %s answered", names[call]);
        for (const int *k = numbers[call]; *k >= 0; k++) {
            printf(" %d %ld times,", *k, answered[call][*k]);
            missing += answered[call][*k] == 0;
        }
        puts("");
    }
    printf("values: %ld cases, %ld differences, %ld answers never met\n", cases, differences, missing);
    return cases < LEAST || differences != 0 || missing != 0;
}
