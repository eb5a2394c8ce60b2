/* What include/surfgimlet.h promises of the ends of its ranges: compiled as C99, C++98 and C++17 and run by tests/header.sh. */
#include <stdio.h>
#include <string.h>
#include "surfgimlet.h"

static int faults = 0;

static void expect(const char *what, uint32_t answer, uint32_t wanted)
{
    if (answer == wanted) return;
    printf("%s: %u (%s), and not %u\n", what, (unsigned)answer, surfgimlet_words(answer), (unsigned)wanted);
    faults++;
}

/* the printed lines as lines of one's own, anelastic, and how many there are; and the two selections, told from them */
static size_t printed(surfgimlet_own_line *lines)
{
    size_t count = 0, index;
    int64_t first, second;
    int32_t m[6];
    uint64_t all = 0, major = 0;
    for (uint32_t number = 0; number < 300000; number++) {
        if (surfgimlet_find_line(number, &index, &first, &second) != SURFGIMLET_ACCEPTED) continue;
        expect("a printed number", surfgimlet_multipliers_of(number, m), SURFGIMLET_ACCEPTED);
        surfgimlet_own_line line = {m[0], m[1], m[2], m[3], m[4], m[5], m[0] == 0 ? first : second, m[0] == 0 ? second : 0};
        lines[count++] = line;
        all |= (uint64_t)1 << index;
        if (line.ip >= 10 || line.ip <= -10 || line.op >= 10 || line.op <= -10) major |= (uint64_t)1 << index;
    }
    expect("all lines", surfgimlet_all_lines() == all ? 0u : 1u, 0u);
    expect("those of at least ten", surfgimlet_major_lines() == major ? 0u : 1u, 0u);
    return count;
}

/* two bodies over the equator, where step one gives C21 and S21 nothing; and a small Moon to the north, which gives S21 less than K1 takes */
static const surfgimlet_body moon = {SURFGIMLET_DIRECTION, 0.0123, 1, 0, 0, 3.8e8}, sun = {SURFGIMLET_DIRECTION, 332946, 0, 1, 0, 1.5e11};
static const surfgimlet_body north = {SURFGIMLET_DIRECTION, 0.001, 0, 0.96, 0.28, 3.8e8};

/* the solid tide on a field of degree 4, at the hour of these phases */
static uint32_t solid(int64_t *c, int64_t *s, surfgimlet_body of_moon, surfgimlet_body of_sun, uint32_t love, surfgimlet_phases at,
                      uint64_t selection, uint32_t *lines)
{
    return surfgimlet_solid_tide(4, c, 15, s, 15, of_moon, of_sun, love, surfgimlet_set_hour(at), selection, lines);
}

static uint32_t same(const surfgimlet_hour *one, const surfgimlet_hour *other) { return memcmp(one, other, sizeof *one) == 0 ? 0u : 1u; }

/* hours: their layout, the start, a set, each move, the ends of its amount, an argument that is none; and what is written by hand */
static void hours(surfgimlet_phases day)
{
    const uint32_t to[6] = {day.tau, day.s, day.h, day.p, day.np, day.ps};
    const uint64_t k1 = (uint64_t)1 << 15;
    surfgimlet_hour hour = surfgimlet_start_hour(), set = surfgimlet_set_hour(day), other;
    int64_t c[15] = {0}, s[15] = {0};
    uint32_t answer = 99, named = 99;
    expect("an hour's size", (uint32_t)sizeof hour, 416u);
    expect("its cosines", (uint32_t)offsetof(surfgimlet_hour, cosines), 24u);
    expect("its sines", (uint32_t)offsetof(surfgimlet_hour, sines), 220u);
    expect("the start", hour.phases.tau | hour.phases.s | hour.phases.h | hour.phases.p | hour.phases.np | hour.phases.ps, 0u);
    for (int i = 0; i < 49; i++) expect("a line at the start", hour.cosines[i] == 1073741824 && hour.sines[i] == 0 ? 0u : 1u, 0u);
    for (uint32_t i = 0; i < 6; i++) {
        hour = surfgimlet_move_hour(hour, i, (int32_t)to[i], &answer);
        expect("a move", answer, SURFGIMLET_ACCEPTED);
    }
    expect("the hour moved to", same(&hour, &set), 0u);
    hour = surfgimlet_move_hour(hour, SURFGIMLET_H, 2147483647, &answer);
    hour = surfgimlet_move_hour(hour, SURFGIMLET_H, -2147483647 - 1, &answer);
    hour = surfgimlet_move_hour(hour, SURFGIMLET_H, 1, &answer);
    expect("the hour moved back", same(&hour, &set), 0u);
    other = surfgimlet_move_hour(hour, SURFGIMLET_PS + 1, 1, &answer);
    expect("an argument 6", answer, SURFGIMLET_NO_SUCH_CHOICE);
    expect("the hour kept", same(&other, &set), 0u);
    hour.cosines[15] = -2147483647 - 1;
    hour.sines[26] = 5;
    hour.phases.s = 7;
    other = surfgimlet_move_hour(hour, SURFGIMLET_S, 3, &answer);
    expect("a move of what is written by hand", answer, SURFGIMLET_ACCEPTED);
    expect("its phase", other.phases.s, 10u);
    expect("a line without the argument", other.sines[26] == 5 && other.cosines[26] == set.cosines[26] ? 0u : 1u, 0u);
    expect("one with it", other.cosines[15] == surfgimlet_set_hour(other.phases).cosines[15] ? 0u : 1u, 0u);
    expect("what is written", surfgimlet_solid_tide(4, c, 15, s, 15, moon, sun, SURFGIMLET_ANELASTIC, hour, k1, &named), SURFGIMLET_ACCEPTED);
    expect("its S21", s[4] == -942000 ? 0u : 1u, 0u);
}

/* the ocean tide of a sheet, on a field of zeros of degree 4 */
static uint32_t ocean(const uint8_t *sheet, size_t length)
{
    const surfgimlet_phases at = {0, 0, 0, 0, 0, 0};
    int64_t c[15] = {0}, s[15] = {0};
    return surfgimlet_ocean_tide(4, c, 15, s, 15, sheet, length, at, SURFGIMLET_CENTRE_OF_MASS);
}

/* three lines, the first and the last alike, one tide and the place (5,0): refused after the place's order, before its degree */
static void twins(void)
{
    uint8_t sheet[54] = {3, 0, 2, 1, 0, 0, 0, 7, 2, 1, 0, 0, 0, 8, 2, 1, 0, 0, 0, 7, 1, 0, 0, 0, 0, 0, 0, 0, 0, 0, 0, 0, 0, 0, 1, 0, 5};
    expect("twin lines", ocean(sheet, sizeof sheet), SURFGIMLET_TWIN_LINES);
    expect("their words", strcmp(surfgimlet_words(16u), "two lines of the sheet have the same six multipliers") == 0 ? 0u : 1u, 0u);
    sheet[37] = 6;
    expect("an order above the degree", ocean(sheet, sizeof sheet), SURFGIMLET_SHEET_VALUE);
    sheet[37] = 0;
    sheet[7] = 6;
    expect("no two alike", ocean(sheet, sizeof sheet), SURFGIMLET_SHEET_DEGREE);
    sheet[36] = 4;
    expect("a place of the field", ocean(sheet, sizeof sheet), SURFGIMLET_ACCEPTED);
}

static int64_t file_c[15], file_s[15];
static uint8_t file[SURFGIMLET_FILE_BYTES(4) + 1];

/* a field whose entries tell their places, written; its text, the bytes behind it, and the order of the refusals, which touch nothing */
static void written(void)
{
    const size_t length = SURFGIMLET_FILE_BYTES(4);
    const uint64_t most = 18446744073709551615u;
    const char *head = "product_type                            gravity_field\nmodelname                                  surfgimlet\n"
        "earth_gravity_constant                398600441500000\nradius                                    6378136.300\n"
        "max_degree                                          4\nerrors                                             no\n"
        "norm                                 fully_normalized\ntide_system                                 zero_tide\n"
        "end_of_head =========================================\ngfc  0  0  1152.921504606846976     0.000000000000000\n"
        "gfc  1  0     0.000000000000001    -0.000000000000600\n";
    size_t told = 99;
    for (int i = 0; i < 15; i++) { file_c[i] = i; file_s[i] = -600 * i; }
    file_c[0] = (int64_t)1 << 60;
    memset(file, '#', sizeof file);
    file_s[14] = -file_c[0] - 1;
    expect("a system 3", surfgimlet_write_field(3, file_c, 15, file_s, 15, 0, 0, 3, file, 0, &told), SURFGIMLET_NO_SUCH_CHOICE);
    expect("a degree 3", surfgimlet_write_field(3, file_c, 15, file_s, 15, 0, 0, 2, file, 0, &told), SURFGIMLET_FIELD_SHAPE);
    expect("an entry beyond", surfgimlet_write_field(4, file_c, 15, file_s, 15, 0, 0, 2, file, 0, &told), SURFGIMLET_FIELD_RANGE);
    file_s[14]++;
    expect("no output", surfgimlet_write_field(4, file_c, 15, file_s, 15, 0, 0, 2, NULL, 0, &told), SURFGIMLET_SHORT_OUTPUT);
    expect("a byte too few", surfgimlet_write_field(4, file_c, 15, file_s, 15, 0, 0, 2, file, length - 1, &told), SURFGIMLET_SHORT_OUTPUT);
    for (size_t i = 0; i < sizeof file; i++) expect("a byte kept", file[i], '#');
    expect("the length kept", (uint32_t)told, 99u);
    expect("the largest numbers", surfgimlet_write_field(4, file_c, 15, file_s, 15, most, most, 0, file, length, &told), SURFGIMLET_ACCEPTED);
    expect("their lines", memcmp(file + 141, "18446744073709551615\nradius                          18446744073709551.615\n", 75) == 0 ? 0u : 1u, 0u);
    expect("a field written", surfgimlet_write_field(4, file_c, 15, file_s, 15, 398600441500000u, 6378136300u, SURFGIMLET_ZERO_TIDE, file, sizeof file, &told),
           SURFGIMLET_ACCEPTED);
    expect("its length", (uint32_t)told, 1296u);
    expect("its start", memcmp(file, head, 11 * 54) == 0 ? 0u : 1u, 0u);
    expect("its last line", memcmp(file + length - 54, "gfc  4  4     0.000000000000014 -1152.921504606846976\n", 54) == 0 ? 0u : 1u, 0u);
    expect("the byte behind it", file[length], '#');
    expect("the length at 60", (uint32_t)SURFGIMLET_FILE_BYTES(60), 102600u);
}

typedef struct {
    int64_t c[21], s[21];
    uint32_t degree, system;
    uint64_t constant, radius;
} read_again;

static uint32_t read_text(const uint8_t *text, size_t length, size_t entries, read_again *into)
{
    return surfgimlet_read_field(text, length, into->c, entries, into->s, entries, &into->degree, &into->constant, &into->radius, &into->system);
}

static uint32_t head_of(const uint8_t *text, size_t length, read_again *into)
{
    return surfgimlet_file_head(text, length, &into->degree, &into->constant, &into->radius, &into->system);
}

/* the numbers of what was written */
static void four(const read_again *got)
{
    expect("its degree", got->degree, 4u);
    expect("its constant", got->constant == 398600441500000u ? 0u : 1u, 0u);
    expect("its radius", got->radius == 6378136300u ? 0u : 1u, 0u);
    expect("its system", got->system, SURFGIMLET_ZERO_TIDE);
}

/* a text of one's own: refused by both calls with the same number, or for its lists alone, and nothing touched */
static void refused(const char *text, uint32_t wanted)
{
    read_again got, kept;
    memset(&got, 0x5a, sizeof got);
    memset(&kept, 0x5a, sizeof kept);
    expect(text, read_text((const uint8_t *)text, strlen(text), 14, &got), wanted);
    expect("what was lent", memcmp(&got, &kept, sizeof got) == 0 ? 0u : 1u, 0u);
    expect("its head", head_of((const uint8_t *)text, strlen(text), &got), wanted == SURFGIMLET_FIELD_SHAPE ? SURFGIMLET_ACCEPTED : wanted);
}

#define HEAD(degree) "product_type gravity_field\nradius 6378136.3\ngravity_constant 3.986004415D+14\nmax_degree " degree "\n"
#define TIDE "tide_system zero_tide\n"

/* what was written, read again; the order of the refusals; halves, the exponent's letters, S of order 0 and a place that no line has */
static void reading(void)
{
    const char *own = "a comment\rbegin_of_head\r\nunknown 1\n" HEAD("5") TIDE
        "end_of_head =\n\ngfc 2 0 -0.5D-15 1152.921504606846976 .1 .2\n\tgfc 05 5 5e-16 -4.9E-16";
    read_again got;
    memset(&got, 0, sizeof got);
    expect("a file's head", head_of(file, SURFGIMLET_FILE_BYTES(4), &got), SURFGIMLET_ACCEPTED);
    four(&got);
    memset(&got, 0x5a, sizeof got);
    expect("a file read", read_text(file, SURFGIMLET_FILE_BYTES(4), 15, &got), SURFGIMLET_ACCEPTED);
    four(&got);
    expect("its lists", memcmp(got.c, file_c, sizeof file_c) == 0 && memcmp(got.s, file_s, sizeof file_s) == 0 ? 0u : 1u, 0u);
    expect("no file", read_text(NULL, 0, 15, &got), SURFGIMLET_FILE_FORM);
    refused(HEAD("61") "end_of_head\ngfc 61 0 1e9 0\ngfc 61 00 0 0\ngfct 0 0 1 0\n", SURFGIMLET_FILE_FORM);
    refused(HEAD("61") "end_of_head\ngfc 61 0 1e9 0\ngfc 61 00 0 0\n", SURFGIMLET_TWIN_PLACES);
    refused(HEAD("61") "end_of_head\n", SURFGIMLET_FILE_RANGE);
    refused(HEAD("60") "end_of_head\ngfc 0 0 1 -1152.9215046068469765\n", SURFGIMLET_FILE_RANGE);
    refused(HEAD("60") "end_of_head\n", SURFGIMLET_NO_SUCH_SYSTEM);
    refused(HEAD("4") TIDE "end_of_head\n", SURFGIMLET_FIELD_SHAPE);
    memset(&got, 0x5a, sizeof got);
    expect("a file of one's own", read_text((const uint8_t *)own, strlen(own), 21, &got), SURFGIMLET_ACCEPTED);
    expect("its head", got.degree == 5 && got.radius == 6378136300u ? 0u : 1u, 0u);
    for (int i = 0; i < 21; i++) {
        expect("an entry of C", got.c[i] == (i == 3 ? -1 : i == 20 ? 1 : 0) ? 0u : 1u, 0u);
        expect("an entry of S", got.s[i] == (i == 3 ? (int64_t)1 << 60 : 0) ? 0u : 1u, 0u);
    }
}

int main(void)
{
    const int64_t end = (int64_t)1 << 60;
    const uint64_t k1 = (uint64_t)1 << 15, long_period = (((uint64_t)1 << 21) - 1) << 26;
    const surfgimlet_phases at = {0, 0, 0, 0, 0, 0}, half = {2147483648u, 0, 0, 0, 0, 0};
    const surfgimlet_phases day = {327043742u, 329517021u, 656638906u, 3117674196u, 3812369497u, 3376471194u};
    int64_t c[15] = {0}, s[15] = {0}, own_c[15] = {0}, own_s[15] = {0}, moved = 0;
    surfgimlet_body bad_moon = moon, bad_sun = sun, heavy = moon;
    surfgimlet_own_line lines[64] = {{1, 0, 0, 0, 0, 0, 3, 5}};
    uint32_t named = 99;

    expect("the version", surfgimlet_version(), SURFGIMLET_VERSION);
    hours(day);
    twins();
    written();
    reading();

    /* with length 0 a null pointer is welcome */
    expect("no lists", surfgimlet_solid_tide(4, NULL, 0, NULL, 0, moon, sun, SURFGIMLET_ANELASTIC, surfgimlet_start_hour(), 0, &named), SURFGIMLET_FIELD_SHAPE);
    expect("no sheet", surfgimlet_ocean_tide(4, c, 15, s, 15, NULL, 0, at, SURFGIMLET_CENTRE_OF_MASS), SURFGIMLET_SHEET_LENGTH);

    expect("no lines", surfgimlet_own_lines(4, c, 15, s, 15, NULL, 0, at), SURFGIMLET_ACCEPTED);

    /* lines of one's own: the layout of a record, and the least numbers of its widths */
    expect("a record's size", (uint32_t)sizeof lines[0], 40u);
    expect("a line", surfgimlet_own_lines(4, own_c, 15, own_s, 15, lines, 1, at), SURFGIMLET_ACCEPTED);
    expect("its C21 and S21", own_c[4] == 500 && own_s[4] == 300 ? 0u : 1u, 0u);
    lines[1].ps = -2147483647 - 1;
    expect("the least multiplier", surfgimlet_own_lines(4, own_c, 15, own_s, 15, lines, 2, at), SURFGIMLET_RECORD_VALUE);
    lines[1].ps = 0;
    lines[1].op = -end * 7 - end;
    expect("the least amplitude", surfgimlet_own_lines(4, own_c, 15, own_s, 15, lines, 2, at), SURFGIMLET_RECORD_VALUE);
    own_c[4] = own_s[4] = 0;

    /* the printed lines as lines of one's own, beside the solid tide of none, are the solid tide of all lines */
    expect("the printed lines", (uint32_t)printed(lines), 49u);
    expect("as one's own", surfgimlet_own_lines(4, own_c, 15, own_s, 15, lines, 49, day), SURFGIMLET_ACCEPTED);
    expect("no lines named", solid(own_c, own_s, north, sun, SURFGIMLET_ANELASTIC, day, 0, &named), SURFGIMLET_ACCEPTED);
    expect("and counted", named, 0u);
    expect("all lines named", solid(c, s, north, sun, SURFGIMLET_ANELASTIC, day, surfgimlet_all_lines(), &named), SURFGIMLET_ACCEPTED);
    expect("and counted", named, 49u);
    for (int i = 0; i < 15; i++) {
        expect("the same entry", c[i] == own_c[i] && s[i] == own_s[i] ? 0u : 1u, 0u);
        expect("an entry that no rule names", (i < 3 || i > 12 ? c[i] == 0 && s[i] == 0 : (i != 3 && i != 6 && i != 10) || s[i] == 0) ? 0u : 1u, 0u);
        c[i] = s[i] = own_c[i] = own_s[i] = 0;
    }

    /* the lines that the elastic model has no amplitudes for */
    expect("the long period", solid(c, s, moon, sun, SURFGIMLET_ELASTIC, day, long_period, &named), SURFGIMLET_ACCEPTED);
    expect("it counts", named, 21u);
    expect("no lines", solid(own_c, own_s, moon, sun, SURFGIMLET_ELASTIC, day, 0, &named), SURFGIMLET_ACCEPTED);
    for (int i = 0; i < 15; i++) {
        expect("it adds nothing", c[i] == own_c[i] && s[i] == own_s[i] ? 0u : 1u, 0u);
        c[i] = s[i] = own_c[i] = own_s[i] = 0;
    }

    /* the order of the refusals: a choice, the field, the selection, the Moon, the Sun, a correction; nothing of either step is added */
    named = 77;
    bad_moon.x = 7;
    bad_sun.r = 1.5e14;
    heavy.ratio = 1e6;
    heavy.r = 1e8;
    s[14] = end + 1;
    expect("a Love model 2", solid(c, s, bad_moon, bad_sun, 2, day, (uint64_t)1 << 49, &named), SURFGIMLET_NO_SUCH_CHOICE);
    bad_sun.kind = 2;
    expect("a Sun of kind 2", solid(c, s, bad_moon, bad_sun, SURFGIMLET_ANELASTIC, day, (uint64_t)1 << 49, &named), SURFGIMLET_NO_SUCH_CHOICE);
    bad_sun.kind = SURFGIMLET_DIRECTION;
    expect("beyond the range", solid(c, s, bad_moon, bad_sun, SURFGIMLET_ANELASTIC, day, (uint64_t)1 << 49, &named), SURFGIMLET_FIELD_RANGE);
    s[14] = 0;
    expect("bit 49", solid(c, s, bad_moon, bad_sun, SURFGIMLET_ANELASTIC, day, (uint64_t)1 << 49, &named), SURFGIMLET_SELECTION_VALUE);
    expect("a Moon not of length one", solid(c, s, bad_moon, bad_sun, SURFGIMLET_ANELASTIC, day, k1, &named), SURFGIMLET_NOT_UNIT);
    expect("a Sun in millimetres", solid(c, s, heavy, bad_sun, SURFGIMLET_ANELASTIC, day, k1, &named), SURFGIMLET_BODY_RANGE);
    expect("a heavy Moon", solid(c, s, heavy, sun, SURFGIMLET_ANELASTIC, day, k1, &named), SURFGIMLET_STEP_ONE_RANGE);
    expect("the count kept", named, 77u);
    for (int i = 0; i < 15; i++) expect("an entry kept", c[i] == 0 && s[i] == 0 ? 0u : 1u, 0u);

    /* the pole: a width that no number wraps through, the ends of its range, and a half that goes away from zero, so that the reversed offsets take all back */
    expect("a pole at 2^32", surfgimlet_pole_tide(4, c, 15, s, 15, (int64_t)1 << 32, 0, SURFGIMLET_ELASTIC), SURFGIMLET_POLE_OFFSET);
    expect("beyond an arcsecond", surfgimlet_pole_tide(4, c, 15, s, 15, 0, -1000001, SURFGIMLET_ELASTIC), SURFGIMLET_POLE_OFFSET);
    expect("at an arcsecond", surfgimlet_pole_tide(4, c, 15, s, 15, -1000000, 1000000, SURFGIMLET_ELASTIC), SURFGIMLET_ACCEPTED);
    expect("its C21 and S21", c[4] == 1290000 && s[4] == 1290000 ? 0u : 1u, 0u);
    expect("back again", surfgimlet_pole_tide(4, c, 15, s, 15, 1000000, -1000000, SURFGIMLET_ELASTIC), SURFGIMLET_ACCEPTED);
    expect("-64.5 and 64.5", surfgimlet_pole_tide(4, c, 15, s, 15, 50, 50, SURFGIMLET_ELASTIC), SURFGIMLET_ACCEPTED);
    expect("away from zero", c[4] == -65 && s[4] == 65 ? 0u : 1u, 0u);
    expect("64.5 and -64.5", surfgimlet_pole_tide(4, c, 15, s, 15, -50, -50, SURFGIMLET_ELASTIC), SURFGIMLET_ACCEPTED);
    for (int i = 0; i < 15; i++) expect("an entry kept by the pole", c[i] == 0 && s[i] == 0 ? 0u : 1u, 0u);

    /* an accepted call leaves the sum, though it lie outside the range */
    s[4] = end;
    expect("S21 at the end of the range", solid(c, s, moon, sun, SURFGIMLET_ANELASTIC, at, k1, &named), SURFGIMLET_ACCEPTED);
    expect("S21 beyond it", s[4] == end + 471000 ? 0u : 1u, 0u);
    expect("K1 alone", named, 1u);
    expect("the next call", solid(c, s, moon, sun, SURFGIMLET_ANELASTIC, at, k1, &named), SURFGIMLET_FIELD_RANGE);

    /* between the steps nothing of the range is tested: step one alone would leave it, both do not */
    s[4] = end;
    expect("the bodies", solid(own_c, own_s, north, sun, SURFGIMLET_ANELASTIC, half, 0, &named), SURFGIMLET_ACCEPTED);
    expect("their S21", own_s[4] > 0 && own_s[4] < 471000 ? 0u : 1u, 0u);
    expect("both steps", solid(c, s, north, sun, SURFGIMLET_ANELASTIC, half, k1, &named), SURFGIMLET_ACCEPTED);
    expect("S21 within the range", s[4] == end + own_s[4] - 471000 ? 0u : 1u, 0u);

    /* a C20 moved out of the range is not moved back */
    expect("a move", surfgimlet_move_c20(-end, SURFGIMLET_TIDE_FREE, SURFGIMLET_MEAN_TIDE, SURFGIMLET_ANELASTIC, &moved), SURFGIMLET_ACCEPTED);
    expect("its way", moved == -end - 18114804 ? 0u : 1u, 0u);
    expect("the move back", surfgimlet_move_c20(moved, SURFGIMLET_MEAN_TIDE, SURFGIMLET_TIDE_FREE, SURFGIMLET_ANELASTIC, &moved), SURFGIMLET_FIELD_RANGE);
    return faults != 0;
}
