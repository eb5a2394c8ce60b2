/* Every call but those of files, at one epoch, 2004-05-17 0h: `epoch SHEET <epoch.txt`. The input is six phases, then of the Moon
 * and of the Sun the mass ratio, x, y, z and r, then how many own lines there are, and of each the six multipliers, ip and op,
 * then the pole's offsets xp and yp, which are not that day's. The corrections are gathered in zeros of degree 12; a processor
 * adds 1e-15 times each to its own coefficients. */
#include <errno.h>
#include <inttypes.h>
#include <stdio.h>
#include <stdlib.h>
#include "surfgimlet.h"

#define DEGREE 12
#define ENTRIES ((DEGREE + 1) * (DEGREE + 2) / 2)

static int64_t c[ENTRIES], s[ENTRIES], c_before[ENTRIES], s_before[ENTRIES];

/* Ends the program where a call was refused. */
static void accepted(const char *call, uint32_t answer)
{
    if (answer == SURFGIMLET_ACCEPTED) return;
    printf("%s refused with %" PRIu32 ": %s\n", call, answer, surfgimlet_words(answer));
    exit(1);
}

/* Prints what a call has added. */
static void added(const char *call)
{
    puts(call);
    for (int n = 0, i = 0; n <= DEGREE; n++)
        for (int m = 0; m <= n; m++, i++) {
            if (c[i] != c_before[i]) printf("C(%d,%d) %+" PRId64 "\n", n, m, c[i] - c_before[i]);
            if (s[i] != s_before[i]) printf("S(%d,%d) %+" PRId64 "\n", n, m, s[i] - s_before[i]);
            c_before[i] = c[i];
            s_before[i] = s[i];
        }
}

/* A whole number, least to most and nothing else: scanf itself would take -1 for a phase, and 99999999999. */
static int64_t whole(const char *what, int64_t least, int64_t most)
{
    char word[32] = "", *end = word;
    long long value = 0;
    errno = 0;
    if (scanf("%31s", word) == 1) value = strtoll(word, &end, 10);
    if (end == word || *end != 0 || errno != 0 || value < least || value > most) {
        printf("'%s' is no %s\n", word, what);
        exit(1);
    }
    return value;
}

/* 0 to 2^32 - 1 */
static uint32_t phase(void) { return (uint32_t)whole("phase", 0, UINT32_MAX); }

static surfgimlet_body body(void)
{
    surfgimlet_body b = {SURFGIMLET_RECTANGULAR, 0, 0, 0, 0, 0};
    if (scanf("%lf%lf%lf%lf%lf", &b.ratio, &b.x, &b.y, &b.z, &b.r) != 5) {
        puts("five numbers of a body are wanted");
        exit(1);
    }
    return b;
}

static surfgimlet_own_line own_line(void)
{
    surfgimlet_own_line line;
    int32_t *multipliers[6] = {&line.tau, &line.s, &line.h, &line.p, &line.np, &line.ps};
    for (int i = 0; i < 6; i++) *multipliers[i] = (int32_t)whole("multiplier", INT32_MIN, INT32_MAX);
    line.ip = whole("amplitude", INT64_MIN, INT64_MAX);
    line.op = whole("amplitude", INT64_MIN, INT64_MAX);
    return line;
}

static size_t read_sheet(const char *name, uint8_t *sheet, size_t room)
{
    FILE *file = name == NULL ? NULL : fopen(name, "rb");
    if (file == NULL) {
        puts("a sheet is wanted");
        exit(1);
    }
    size_t length = fread(sheet, 1, room, file);
    fclose(file);
    return length;
}

int main(int argc, char **argv)
{
    const uint32_t love = SURFGIMLET_ANELASTIC;
    static uint8_t sheet[65536];
    size_t sheet_length = read_sheet(argc == 2 ? argv[1] : NULL, sheet, sizeof sheet);
    surfgimlet_phases at;
    at.tau = phase();
    at.s = phase();
    at.h = phase();
    at.p = phase();
    at.np = phase();
    at.ps = phase();
    surfgimlet_body moon = body(), sun = body();
    surfgimlet_own_line lines[64];
    size_t lines_length = (size_t)whole("number of own lines", 0, 64);
    for (size_t i = 0; i < lines_length; i++) lines[i] = own_line();
    int64_t xp = whole("pole offset", INT64_MIN, INT64_MAX);
    int64_t yp = whole("pole offset", INT64_MIN, INT64_MAX);

    if (surfgimlet_version() != SURFGIMLET_VERSION) {
        puts("library and header are of two versions");
        return 1;
    }
    printf("version %" PRIu32 "\n", surfgimlet_version());

    /* the solid tide wants a zero-tide C20: a tide-free one, made with this Love model's k20, is moved once, before the first epoch */
    int64_t c20;
    accepted("move_c20", surfgimlet_move_c20(-484165000000000, SURFGIMLET_TIDE_FREE, SURFGIMLET_ZERO_TIDE, love, &c20));
    printf("C20 zero-tide %" PRId64 "\n", c20);

    /* made once for the epoch, and used for any number of fields */
    surfgimlet_hour hour = surfgimlet_set_hour(at);

    /* what the Moon and the Sun raise, and the lines of a laser operator's selection; an altimeter operator's may be
     * surfgimlet_major_lines() */
    uint32_t named;
    accepted("solid_tide", surfgimlet_solid_tide(DEGREE, c, ENTRIES, s, ENTRIES, moon, sun, love, hour, surfgimlet_all_lines(), &named));
    added("solid tide");
    printf("lines named %" PRIu32 "\n", named);
    accepted("own_lines", surfgimlet_own_lines(DEGREE, c, ENTRIES, s, ENTRIES, lines, lines_length, at));
    added("own lines");
    accepted("pole_tide", surfgimlet_pole_tide(DEGREE, c, ENTRIES, s, ENTRIES, xp, yp, love));
    added("pole tide");
    accepted("ocean_tide", surfgimlet_ocean_tide(DEGREE, c, ENTRIES, s, ENTRIES, sheet, sheet_length, at, SURFGIMLET_CENTRE_OF_MASS));
    added("ocean tide");

    /* K1 is 165,555; a printed line by its number, and a number that none has */
    int32_t n[6];
    uint32_t number, answer;
    size_t index;
    int64_t first, second;
    accepted("multipliers_of", surfgimlet_multipliers_of(165555, n));
    accepted("number_of", surfgimlet_number_of(n, &number));
    printf("%" PRIu32 " is", number);
    for (int i = 0; i < 6; i++) printf(" %" PRId32, n[i]);
    accepted("find_line", surfgimlet_find_line(number, &index, &first, &second));
    printf("\nline %zu amplitudes %" PRId64 " %" PRId64 "\n", index, first, second);
    printf("cosine %" PRId32 " sine %" PRId32 " at this hour\n", hour.cosines[index], hour.sines[index]);
    hour = surfgimlet_move_hour(surfgimlet_start_hour(), SURFGIMLET_S, 1 << 30, &answer);
    accepted("move_hour", answer);
    printf("cosine %" PRId32 " sine %" PRId32 " from the start, s moved by a quarter turn\n", hour.cosines[index], hour.sines[index]);
    printf("265555: %s\n", surfgimlet_words(surfgimlet_find_line(265555, &index, &first, &second)));
    return 0;
}
