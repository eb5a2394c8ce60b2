/* A gravity field file corrected at one epoch, 2004-05-17 0h, and written back: `field field.gfc OUT`. The phases, the Moon, the Sun
 * and the pole's offsets, which are not that day's, are those of epoch.txt. */
#include <inttypes.h>
#include <stdio.h>
#include <stdlib.h>
#include "surfgimlet.h"

#define MOST_BYTES 131072

static const surfgimlet_phases at = {327043742, 329517021, 656638906, 3117674196, 3812369497, 3376471194};
static const surfgimlet_body moon = {SURFGIMLET_RECTANGULAR, 0.012300034,
                                     -355452275.2669934, 164619588.90359762, 78939894.915495992, 399596591.64279854};
static const surfgimlet_body sun = {SURFGIMLET_RECTANGULAR, 332946.048,
                                    -142729805997.8396, 2252600386.0736647, 50151303252.337364, 151301106891.4837};
static const int64_t xp = -118250, yp = 156400;

static void give_up(const char *why)
{
    puts(why);
    exit(1);
}

/* Ends the program where a call was refused: no file is written then. */
static void accepted(const char *call, uint32_t answer)
{
    if (answer == SURFGIMLET_ACCEPTED) return;
    printf("%s refused with %" PRIu32 ": %s\n", call, answer, surfgimlet_words(answer));
    exit(1);
}

static size_t read_bytes(const char *name, uint8_t *bytes, size_t room)
{
    FILE *file = fopen(name, "rb");
    if (file == NULL) give_up("the file cannot be read");
    size_t length = fread(bytes, 1, room, file);
    fclose(file);
    return length;
}

static void write_bytes(const char *name, const uint8_t *bytes, size_t length)
{
    FILE *file = fopen(name, "wb");
    if (file == NULL || fwrite(bytes, 1, length, file) != length || fclose(file) != 0) give_up("the file cannot be written");
}

static int64_t *list(size_t entries)
{
    int64_t *l = calloc(entries, sizeof *l);
    if (l == NULL) give_up("no memory for a list");
    return l;
}

int main(int argc, char **argv)
{
    const uint32_t love = SURFGIMLET_ANELASTIC;
    static uint8_t text[MOST_BYTES + 1], out[SURFGIMLET_FILE_BYTES(60)];
    uint32_t degree, system, named;
    uint64_t constant, radius;
    if (argc != 3) give_up("a gravity field file and a name for the corrected one are wanted");
    if (surfgimlet_version() != SURFGIMLET_VERSION) give_up("library and header are of two versions");

    /* there is room for one byte more than a file may have, so that a longer one is refused and not cut */
    size_t length = read_bytes(argv[1], text, sizeof text);

    /* the whole file is tested here, and its degree tells which lists to lend */
    accepted("file_head", surfgimlet_file_head(text, length, &degree, &constant, &radius, &system));
    size_t entries = (size_t)(degree + 1) * (degree + 2) / 2;
    int64_t *c = list(entries), *s = list(entries);
    accepted("read_field", surfgimlet_read_field(text, length, c, entries, s, entries, &degree, &constant, &radius, &system));

    /* the solid tide wants a zero-tide C20, which stands at [3]; a tide-free one is to have been made with this Love model's k20 */
    accepted("move_c20", surfgimlet_move_c20(c[3], system, SURFGIMLET_ZERO_TIDE, love, &c[3]));

    /* what the Moon and the Sun raise, with all lines, and what the pole's motion raises */
    accepted("solid_tide", surfgimlet_solid_tide(degree, c, entries, s, entries, moon, sun, love, surfgimlet_set_hour(at),
                                                 surfgimlet_all_lines(), &named));
    accepted("pole_tide", surfgimlet_pole_tide(degree, c, entries, s, entries, xp, yp, love));

    /* the field of this epoch, zero-tide now, with the constant and the radius that it came with */
    size_t written;
    accepted("write_field", surfgimlet_write_field(degree, c, entries, s, entries, constant, radius, SURFGIMLET_ZERO_TIDE, out,
                                                   sizeof out, &written));
    write_bytes(argv[2], out, written);
    free(c);
    free(s);
    return 0;
}
