#ifndef BENCH_H
#define BENCH_H

#include "surfgimlet.h"

typedef surfgimlet_hour start_call(void);
typedef surfgimlet_hour set_call(surfgimlet_phases phases);
typedef surfgimlet_hour move_call(surfgimlet_hour hour, uint32_t argument, int32_t amount, uint32_t *answer);
typedef uint32_t solid_call(uint32_t n, int64_t *c, size_t c_length, int64_t *s, size_t s_length, surfgimlet_body moon, surfgimlet_body sun, uint32_t love,
                            surfgimlet_hour hour, uint64_t selection, uint32_t *lines);
typedef uint32_t own_call(uint32_t n, int64_t *c, size_t c_length, int64_t *s, size_t s_length, const surfgimlet_own_line *lines, size_t lines_length, surfgimlet_phases phases);
typedef uint32_t pole_call(uint32_t n, int64_t *c, size_t c_length, int64_t *s, size_t s_length, int64_t xp, int64_t yp, uint32_t love);
typedef uint32_t ocean_call(uint32_t n, int64_t *c, size_t c_length, int64_t *s, size_t s_length, const uint8_t *sheet, size_t length, surfgimlet_phases phases, uint32_t frame);
typedef uint32_t head_call(const uint8_t *text, size_t length, uint32_t *degree, uint64_t *constant, uint64_t *radius, uint32_t *system);
typedef uint32_t read_call(const uint8_t *text, size_t length, int64_t *c, size_t c_length, int64_t *s, size_t s_length, uint32_t *degree, uint64_t *constant,
                           uint64_t *radius, uint32_t *system);
typedef uint32_t write_call(uint32_t n, const int64_t *c, size_t c_length, const int64_t *s, size_t s_length, uint64_t constant, uint64_t radius, uint32_t system,
                            uint8_t *out, size_t out_length, size_t *written);

/* best.c and files.c, once by each compiler */
start_call gcc_start_hour, clang_start_hour;
set_call gcc_set_hour, clang_set_hour;
move_call gcc_move_hour, clang_move_hour;
solid_call gcc_solid_tide, clang_solid_tide;
own_call gcc_own_lines, clang_own_lines;
pole_call gcc_pole_tide, clang_pole_tide;
ocean_call gcc_ocean_tide, clang_ocean_tide;
head_call gcc_file_head, clang_file_head;
read_call gcc_read_field, clang_read_field;
write_call gcc_write_field, clang_write_field;

/* the archive of an earlier commit, its names begun with earlier_: of version 2.0.0 or later. Weak names are 0 where it is without them: it has the two steps
 * before 3.0.0 and the solid tide from there on, which takes phases before 4.0.0, and an hour with the calls that make one from there on; the pole tide
 * from 2.1.0 on; and files from 4.2.0 on. */
typedef uint32_t step_one_call(uint32_t n, int64_t *c, size_t c_length, int64_t *s, size_t s_length, surfgimlet_body moon, surfgimlet_body sun, uint32_t love);
typedef uint32_t step_two_call(uint32_t n, int64_t *c, size_t c_length, int64_t *s, size_t s_length, surfgimlet_phases phases, uint32_t love, uint64_t selection, uint32_t *lines);
__attribute__((weak)) step_one_call earlier_surfgimlet_step_one;
__attribute__((weak)) step_two_call earlier_surfgimlet_step_two;
typedef uint32_t phases_call(uint32_t n, int64_t *c, size_t c_length, int64_t *s, size_t s_length, surfgimlet_body moon, surfgimlet_body sun, uint32_t love,
                             surfgimlet_phases phases, uint64_t selection, uint32_t *lines);
__attribute__((weak)) phases_call earlier_solid_tide_of_phases __asm__("earlier_surfgimlet_solid_tide");
__attribute__((weak)) solid_call earlier_surfgimlet_solid_tide;
__attribute__((weak)) start_call earlier_surfgimlet_start_hour;
__attribute__((weak)) set_call earlier_surfgimlet_set_hour;
__attribute__((weak)) move_call earlier_surfgimlet_move_hour;
own_call earlier_surfgimlet_own_lines;
__attribute__((weak)) pole_call earlier_surfgimlet_pole_tide;
ocean_call earlier_surfgimlet_ocean_tide;
__attribute__((weak)) head_call earlier_surfgimlet_file_head;
__attribute__((weak)) read_call earlier_surfgimlet_read_field;
__attribute__((weak)) write_call earlier_surfgimlet_write_field;
typedef uint32_t version_call(void);
version_call earlier_surfgimlet_version;

/* doubles.c: phases and amounts in radians, offsets in arcseconds */
typedef struct { double phases[6], cosines[49], sines[49]; } doubles_hour;
void doubles_set_hour(doubles_hour *hour, const double phases[6]);
void doubles_move_hour(doubles_hour *hour, uint32_t argument, double amount);
void doubles_solid_tide(double *c, double *s, surfgimlet_body moon, surfgimlet_body sun, uint32_t love, const doubles_hour *hour, uint64_t selection);
uint32_t doubles_own_lines(double *c, double *s, const surfgimlet_own_line *lines, size_t lines_length, const double phases[6]);
void doubles_pole_tide(double *c, double *s, double xp, double yp, uint32_t love);
uint32_t doubles_ocean_tide(uint32_t n, double *c, double *s, const uint8_t *sheet, size_t length, const double phases[6], uint32_t frame);

#endif
