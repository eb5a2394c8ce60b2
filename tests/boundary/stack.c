/* The stack that each call takes: run on a stack painted beforehand, and told by how far down the paint is gone. */
#define _DEFAULT_SOURCE
#define _XOPEN_SOURCE 700
#include <stddef.h>
#include <stdint.h>
#include <stdio.h>
#include <string.h>
#include <ucontext.h>
#include "surfgimlet.h"

#define ROOM 1048576
#define ALLOWED 65536
#define ALLOWED_READING 196608 /* as README says */
#define PAINT 0xa5

static union { max_align_t aligned; uint8_t bytes[ROOM]; } stack;
static ucontext_t here, there;
static int64_t c[1891], s[1891], moved, first, second;
static int32_t multipliers[6];
static uint32_t number, answer, system_of;
static uint64_t constant, radius;
static size_t place;
static surfgimlet_own_line lines[64];
static uint8_t sheet[70000];
static size_t sheet_length;
static uint8_t file[131072];
static size_t file_length;
static char many[131072]; /* a file of some 8000 places, more than a field has */
static size_t many_length;

/* the longest sheet: 128 lines, 32 tides, 90 places */
static void fill(void)
{
    uint8_t *at = sheet;
    *at++ = 128; *at++ = 0;
    for (int i = 0; i < 128; i++, at += 6) { at[0] = (uint8_t)(i % 12); at[5] = (uint8_t)(i / 12); } /* no two alike */
    *at++ = 32; *at++ = 0; at += 4 * 128 * 32;
    *at++ = 90; *at++ = 0;
    for (int n = 1; n <= 12; n++)
        for (int m = 0; m <= n; m++) { *at++ = (uint8_t)n; *at++ = (uint8_t)m; at += 16 * 32; }
    sheet_length = (size_t)(at - sheet);
}

static void fill_many(void)
{
    many_length = (size_t)snprintf(many, sizeof many, "product_type gravity_field\nradius 1\ngravity_constant 1\nmax_degree 200\nend_of_head\n");
    for (int n = 0; n <= 200; n++)
        for (int m = 0; m <= n && many_length + 20 < sizeof many; m++)
            many_length += (size_t)snprintf(many + many_length, 20, "gfc %d %d 1 1\n", n, m);
}

static const surfgimlet_phases b = {1, 2, 3, 4, 5, 6};
static surfgimlet_hour hour;
static const surfgimlet_body moon = {SURFGIMLET_DIRECTION, 0.0123, 0.6, 0.0, 0.8, 3.8e8};
static const surfgimlet_body sun = {SURFGIMLET_RECTANGULAR, 332946, 0.9e11, 0.0, 1.2e11, 1.5e11};

static void nothing(void) { answer = 0; }
static void start_hour(void) { hour = surfgimlet_start_hour(); }
static void set_hour(void) { hour = surfgimlet_set_hour(b); }
static void move_hour(void) { hour = surfgimlet_move_hour(hour, SURFGIMLET_S, -123456789, &answer); }
static void solid_tide(void) { answer = surfgimlet_solid_tide(60, c, 1891, s, 1891, moon, sun, 1, hour, surfgimlet_all_lines(), &number); }
static void own_lines(void) { answer = surfgimlet_own_lines(60, c, 1891, s, 1891, lines, 64, b); }
static void pole_tide(void) { answer = surfgimlet_pole_tide(60, c, 1891, s, 1891, 123456, -654321, 1); }
static void ocean_tide(void) { answer = surfgimlet_ocean_tide(60, c, 1891, s, 1891, sheet, sheet_length, b, 0); }
static void move_c20(void) { answer = surfgimlet_move_c20(0, 0, 2, 1, &moved); }
static void multipliers_of(void) { answer = surfgimlet_multipliers_of(165555, multipliers); }
static void number_of(void) { answer = surfgimlet_number_of(multipliers, &number); }
static void find_line(void) { answer = surfgimlet_find_line(255555, &place, &first, &second); }
static void write_field(void) { answer = surfgimlet_write_field(60, c, 1891, s, 1891, 398600441500000u, 6378136300u, 1, file, sizeof file, &file_length); }
static void file_head(void) { answer = surfgimlet_file_head(file, file_length, &number, &constant, &radius, &system_of); }
static void read_many(void) { answer = surfgimlet_read_field((const uint8_t *)many, many_length, c, 1891, s, 1891, &number, &constant, &radius, &system_of); }
static void read_field(void) { answer = surfgimlet_read_field(file, file_length, c, 1891, s, 1891, &number, &constant, &radius, &system_of); }

static size_t taken(void (*call)(void))
{
    size_t clean = 0;
    memset(stack.bytes, PAINT, ROOM);
    getcontext(&there);
    there.uc_stack.ss_sp = stack.bytes;
    there.uc_stack.ss_size = ROOM;
    there.uc_link = &here;
    makecontext(&there, call, 0);
    swapcontext(&here, &there);
    while (clean < ROOM && stack.bytes[clean] == PAINT) clean++;
    return ROOM - clean;
}

int main(void)
{
    static const struct { const char *name; void (*call)(void); size_t allowed; uint32_t told; } calls[] = {{"start_hour", start_hour, ALLOWED, 0},
        {"set_hour", set_hour, ALLOWED, 0}, {"move_hour", move_hour, ALLOWED, 0}, {"solid_tide", solid_tide, ALLOWED, 0}, {"own_lines", own_lines, ALLOWED, 0},
        {"pole_tide", pole_tide, ALLOWED, 0}, {"ocean_tide", ocean_tide, ALLOWED, 0}, {"move_c20", move_c20, ALLOWED, 0},
        {"multipliers_of", multipliers_of, ALLOWED, 0}, {"number_of", number_of, ALLOWED, 0}, {"find_line", find_line, ALLOWED, 0},
        {"write_field", write_field, ALLOWED, 0}, /* and what it wrote, read */
        {"file_head", file_head, ALLOWED_READING, 0}, {"read_field", read_field, ALLOWED_READING, 0},
        {"read_field, of many lines", read_many, ALLOWED_READING, SURFGIMLET_FILE_RANGE},
    };
    size_t frame, beyond = 0;
    fill();
    fill_many();
    frame = taken(nothing);
    for (size_t i = 0; i < sizeof calls / sizeof calls[0]; i++) {
        size_t bytes;
        calls[i].call(); /* so that no name is looked up on the painted stack */
        bytes = taken(calls[i].call) - frame;
        printf("stack: %s takes %zu bytes, %zu allowed\n", calls[i].name, bytes, calls[i].allowed);
        if (answer != calls[i].told) { printf("stack: %s answered %u\n", calls[i].name, (unsigned)answer); return 1; }
        beyond += bytes >= calls[i].allowed;
    }
    printf("stack: %zu calls take more than they are allowed\n", beyond);
    return beyond != 0;
}
