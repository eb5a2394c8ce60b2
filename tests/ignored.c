/* Ignores the answer of every call that has one: tests/header.sh wants a warning for each. */
#include "surfgimlet.h"

void ignored(int64_t *c, int64_t *s, int32_t *multipliers, uint32_t *number, size_t *place, surfgimlet_phases at, surfgimlet_hour hour, surfgimlet_body body,
             uint8_t *file, uint64_t *size);

void ignored(int64_t *c, int64_t *s, int32_t *multipliers, uint32_t *number, size_t *place, surfgimlet_phases at, surfgimlet_hour hour, surfgimlet_body body,
             uint8_t *file, uint64_t *size)
{
    surfgimlet_start_hour();
    surfgimlet_set_hour(at);
    surfgimlet_move_hour(hour, SURFGIMLET_S, 1, number);
    surfgimlet_solid_tide(4, c, 15, s, 15, body, body, SURFGIMLET_ANELASTIC, hour, surfgimlet_all_lines(), number);
    surfgimlet_own_lines(4, c, 15, s, 15, 0, 0, at);
    surfgimlet_pole_tide(4, c, 15, s, 15, 0, 0, SURFGIMLET_ANELASTIC);
    surfgimlet_ocean_tide(4, c, 15, s, 15, 0, 0, at, SURFGIMLET_CENTRE_OF_MASS);
    surfgimlet_move_c20(0, SURFGIMLET_TIDE_FREE, SURFGIMLET_ZERO_TIDE, SURFGIMLET_ANELASTIC, c);
    surfgimlet_multipliers_of(165555, multipliers);
    surfgimlet_number_of(multipliers, number);
    surfgimlet_find_line(165555, place, c, s);
    surfgimlet_write_field(4, c, 15, s, 15, 0, 0, SURFGIMLET_TIDE_FREE, file, 0, place);
    surfgimlet_file_head(file, 0, number, size, size, number);
    surfgimlet_read_field(file, 0, c, 15, s, 15, number, size, size, number);
}
