/* Surfgimlet: tide corrections to the coefficients of a gravity field, and the permanent tide of C20, after the IERS
 * Conventions (1996), Technical Note 21, chapter 6, and the Graz synthesis for the ocean; and gravity field files after
 * ICGEM. For x86-64 Linux; C99 or C++.
 *
 * A count is 10^-15. A field of degree n (4 to 60) is two lists of counts, c and s, of (n+1)(n+2)/2 entries each, the
 * fully normalized coefficient of degree l and order m at l(l+1)/2 + m, every entry from -2^60 to 2^60. A tide's call adds
 * its corrections to what it is lent. Entries that a rule does not name, and S of order 0, keep their values. An accepted
 * call leaves the sum even where that lies outside the range; the next call on that field then answers 2. Reading a file
 * sets every entry, S of order 0 too.
 *
 * A correction is a whole number of counts, the nearest, an exact half going away from zero. So amplitudes of own lines,
 * coefficients of a sheet or offsets of the pole, given with the other sign, give each correction with the other sign.
 *
 * Every call marked SURFGIMLET_ANSWER answers 0, or the number of a refusal: the first that applies in the order printed
 * at the call. A refused call changes nothing it was lent, so an answer that nobody looks at may be a field without its
 * tide: compilers that can warn of it do. The three calls that answer an hour are marked too, since one that nobody takes is
 * lost.
 *
 * No call allocates, locks, keeps anything between calls, opens a file or fails to return; calls on different memory may
 * run at the same time.
 *
 * What the caller owes, and no call can test:
 * - each pointer is aligned for its type and valid for the length given with it (or for the number of entries in its
 *   brackets, or for one value). With length 0 a null pointer is welcome; elsewhere none is.
 * - no two lists or results lent to one call overlap, and none of them overlaps what the call reads;
 * - the floating-point environment is the one a program starts in: rounding to nearest, subnormal numbers kept, no traps.
 *   gcc's -ffast-math at LINK time changes it (subnormals become 0): leave that out where the program is linked.
 * Nothing else is owed: any numbers and bytes may be given.
 */
#ifndef SURFGIMLET_HEADER
#define SURFGIMLET_HEADER

#include <stddef.h>
#include <stdint.h>

/* major * 1,000,000 + minor * 1,000 + patch; surfgimlet_version answers that of the library. */
#define SURFGIMLET_VERSION 4002000

/* Where the compiler can, it warns of an answer that is not used. */
#if defined(__cplusplus) && __cplusplus >= 201703L
#define SURFGIMLET_ANSWER [[nodiscard]]
#elif defined(__GNUC__)
#define SURFGIMLET_ANSWER __attribute__((warn_unused_result))
#else
#define SURFGIMLET_ANSWER
#endif

/* Answers; surfgimlet_words, below, says each in a sentence. */
#define SURFGIMLET_ACCEPTED 0u
#define SURFGIMLET_FIELD_SHAPE 1u
#define SURFGIMLET_FIELD_RANGE 2u
#define SURFGIMLET_NOT_FINITE 3u
#define SURFGIMLET_BODY_RANGE 4u
#define SURFGIMLET_NOT_UNIT 5u
#define SURFGIMLET_STEP_ONE_RANGE 6u
#define SURFGIMLET_SHEET_LENGTH 7u
#define SURFGIMLET_SHEET_VALUE 8u
#define SURFGIMLET_SHEET_DEGREE 9u
#define SURFGIMLET_NOT_DOODSON 10u
#define SURFGIMLET_NO_SUCH_LINE 11u
#define SURFGIMLET_RECORD_COUNT 12u
#define SURFGIMLET_RECORD_VALUE 13u
#define SURFGIMLET_SELECTION_VALUE 14u
#define SURFGIMLET_POLE_OFFSET 15u
#define SURFGIMLET_TWIN_LINES 16u
#define SURFGIMLET_FILE_FORM 17u
#define SURFGIMLET_TWIN_PLACES 18u
#define SURFGIMLET_FILE_RANGE 19u
#define SURFGIMLET_NO_SUCH_SYSTEM 20u
#define SURFGIMLET_SHORT_OUTPUT 21u
#define SURFGIMLET_NO_SUCH_CHOICE 100u

static inline const char *surfgimlet_words(uint32_t answer)
{
    switch (answer) {
    case SURFGIMLET_ACCEPTED: return "accepted";
    case SURFGIMLET_FIELD_SHAPE: return "the degree is outside 4..60, or a list has another length";
    case SURFGIMLET_FIELD_RANGE: return "an entry of the field, or the C20 to move, is outside -2^60..2^60";
    case SURFGIMLET_NOT_FINITE: return "a number of a body's place, or its mass ratio, is not finite";
    case SURFGIMLET_BODY_RANGE: return "a body's distance is outside 10^8..10^12 m, or its mass ratio is not above 0 and at most 10^6";
    case SURFGIMLET_NOT_UNIT: return "a body's direction is not of length one: its square differs from 1 by more than 2^-40";
    case SURFGIMLET_STEP_ONE_RANGE: return "a step-one correction, before the permanent part, is not strictly between -2^52 and 2^52 counts";
    case SURFGIMLET_SHEET_LENGTH: return "the sheet has a section's count outside its range, or another length";
    case SURFGIMLET_SHEET_VALUE: return "the sheet has a value or a row's total out of range, an S not zero at order 0, or places not ascending";
    case SURFGIMLET_SHEET_DEGREE: return "the sheet has a place of degree above the field's";
    case SURFGIMLET_NOT_DOODSON: return "the Doodson number is above 999,999, or none can write the multipliers";
    case SURFGIMLET_NO_SUCH_LINE: return "no printed line has the Doodson number";
    case SURFGIMLET_RECORD_COUNT: return "the list of own lines has more than 64 records";
    case SURFGIMLET_RECORD_VALUE: return "an own line has a multiplier outside -13..13, a first one not 0, 1 or 2, or an amplitude beyond 100,000";
    case SURFGIMLET_SELECTION_VALUE: return "the selection has a bit above 48, which stands for no line";
    case SURFGIMLET_POLE_OFFSET: return "a pole offset is outside -1,000,000..1,000,000 micro-arcseconds";
    case SURFGIMLET_TWIN_LINES: return "two lines of the sheet have the same six multipliers";
    case SURFGIMLET_FILE_FORM: return "the file is malformed, or an entry of its header is missing or repeated";
    case SURFGIMLET_TWIN_PLACES: return "two lines of the file have the same place";
    case SURFGIMLET_FILE_RANGE: return "the file's degree or a value is out of range";
    case SURFGIMLET_NO_SUCH_SYSTEM: return "the file names no known tide system";
    case SURFGIMLET_SHORT_OUTPUT: return "the output is too small";
    case SURFGIMLET_NO_SUCH_CHOICE: return "a choice, a body's kind or an argument is none of its numbers";
    default: return "no answer of this unit";
    }
}

/* Choices. */
#define SURFGIMLET_ELASTIC 0u /* Love models; anelastic is the standard's own recommendation */
#define SURFGIMLET_ANELASTIC 1u
#define SURFGIMLET_CENTRE_OF_FIGURE 0u /* frames; the centre of mass is that of orbits */
#define SURFGIMLET_CENTRE_OF_MASS 1u
#define SURFGIMLET_TIDE_FREE 0u /* permanent systems */
#define SURFGIMLET_ZERO_TIDE 1u
#define SURFGIMLET_MEAN_TIDE 2u
#define SURFGIMLET_RECTANGULAR 0u /* kinds of a body's place */
#define SURFGIMLET_DIRECTION 1u
#define SURFGIMLET_TAU 0u /* arguments, in the order of surfgimlet_phases */
#define SURFGIMLET_S 1u
#define SURFGIMLET_H 2u
#define SURFGIMLET_P 3u
#define SURFGIMLET_NP 4u
#define SURFGIMLET_PS 5u

/* The bytes of a field of degree n as surfgimlet_write_field writes it: 102,600 at n = 60. */
#define SURFGIMLET_FILE_BYTES(n) ((size_t)54 * (9 + ((size_t)(n) + 1) * ((size_t)(n) + 2) / 2))

#ifdef __cplusplus
extern "C" {
#endif

/* The six Doodson arguments as phases, a turn being 2^32: tau, s, h, p, N', ps. np is N' = -Omega, and NOT the longitude
 * Omega of the Moon's node itself. */
typedef struct {
    uint32_t tau, s, h, p, np, ps;
} surfgimlet_phases;

/* An hour: six phases, and the cosines and sines of the 49 printed lines at them, in units of 2^-30, line i at [i]. It is
 * 416 bytes without a gap. The caller keeps it and makes it by the three calls below; values written into it by hand are
 * used as they stand. */
typedef struct {
    surfgimlet_phases phases;
    int32_t cosines[49], sines[49];
} surfgimlet_hour;

/* A body: ratio, its mass in Earth masses (Moon 0.0123000, Sun 332946), and its place in geocentric, Earth-fixed axes: x to
 * Greenwich, y to 90 degrees east, z north. Rectangular: x, y, z and the distance r in metres, r worked out from x, y, z
 * in double. Direction: x, y, z without unit, of length one, and r in metres. */
typedef struct {
    uint32_t kind;
    double ratio;
    double x, y, z;
    double r;
} surfgimlet_body;

/* A tide line of an operator's own: its six multipliers, the first 0, 1 or 2 and the others -13..13, and its amplitudes in
 * phase (ip) and out of phase (op) in tenths of 10^-12, that is in 100 counts, each -100,000..100,000. */
typedef struct {
    int32_t tau, s, h, p, np, ps;
    int64_t ip, op;
} surfgimlet_own_line;

/* The version of the library, as SURFGIMLET_VERSION. */
uint32_t surfgimlet_version(void);

/* An hour, made once for an epoch and used for any number of fields. After any of these calls in any order, from the start,
 * an hour's cosines and sines are those of its phases. */

/* Answered: the hour of all phases zero. */
SURFGIMLET_ANSWER surfgimlet_hour surfgimlet_start_hour(void);

/* Answered: the hour of these phases; nothing of an earlier hour is in it. */
SURFGIMLET_ANSWER surfgimlet_hour surfgimlet_set_hour(surfgimlet_phases phases);

/* One phase moved by a signed amount, wrapping round the turn of 2^32: hour = surfgimlet_move_hour(hour, SURFGIMLET_S, ..).
 * Given: an hour; which argument; the amount.
 * Answered: the hour moved; in *answer 0, or 100, and then the hour as it was given. Look at it: no compiler warns here.
 * The lines that have the argument, their multiplier of it not being 0, get the cosines and sines of the new phases; the
 * others, whose phase has not changed, keep theirs. So a move costs less than a set, little where few lines have the
 * argument; and in an hour written by hand the lines without it keep what was written.
 * Refused: 100. */
SURFGIMLET_ANSWER surfgimlet_hour surfgimlet_move_hour(surfgimlet_hour hour, uint32_t argument, int32_t amount, uint32_t *answer);

/* Solid tide: what the Moon and the Sun raise (step one, eqs. 1 to 7), and what the printed lines that a selection names
 * add to it (step two, Tables 6.2). C20 must be zero-tide. Bit i of a selection stands for line i, the index 0..48 that
 * surfgimlet_find_line answers; 0 names no line.
 * Given: a field in counts, n its degree, the lengths in entries; the Moon, the Sun; a Love model; the hour, of which the
 * cosines and sines are read, and not the phases; a selection.
 * Done: the corrections of both steps are added as one: those of degree 2, of degree 3 and of degree 4 to order 2, without
 * the permanent part of C20, and what the lines named, and no others, add to C20, C21, S21, C22 and S22.
 * Answered: in *lines, how many lines are named; the long-period ones count in the elastic model too, which has no
 * amplitudes for them. Where the call is refused nothing of either step is added, and *lines keeps its value.
 * Refused: 100; 1, 2; 14; the Moon's 3, 4, 5; the Sun's 3, 4, 5; 6, tested before the permanent part is taken off. */
SURFGIMLET_ANSWER uint32_t surfgimlet_solid_tide(uint32_t n, int64_t *c, size_t c_length, int64_t *s, size_t s_length,
                                                 surfgimlet_body moon, surfgimlet_body sun, uint32_t love_model,
                                                 surfgimlet_hour hour, uint64_t selection, uint32_t *lines);

/* Two selections: all 49 lines; and those that have an anelastic amplitude, in phase or out of phase, of at least ten
 * tenths of 10^-12 without its sign, which are 21. */
uint64_t surfgimlet_all_lines(void);
uint64_t surfgimlet_major_lines(void);

/* Tide lines of an operator's own. With x the phase of a line, its multipliers times the phases, the first multiplier says
 * what it adds, as it does for a printed line:
 *   0, long period: ip cos x - op sin x to C20;
 *   1, diurnal: ip sin x + op cos x to C21, ip cos x - op sin x to S21;
 *   2, semidiurnal: ip cos x - op sin x to C22, -ip sin x - op cos x to S22.
 * Given: a field in counts, n its degree, the lengths in entries; 0 to 64 records, equal ones all counting; the phases.
 * Done: the corrections of C20, C21, S21, C22 and S22 are added.
 * Refused: 1, 2; 12, 13. */
SURFGIMLET_ANSWER uint32_t surfgimlet_own_lines(uint32_t n, int64_t *c, size_t c_length, int64_t *s, size_t s_length,
                                                const surfgimlet_own_line *lines, size_t lines_length,
                                                surfgimlet_phases phases);

/* Solid pole tide: the deformation that the pole's motion about its mean raises. In counts, before its one rounding:
 *   elastic: -1290 xp / 1000 to C21, 1290 yp / 1000 to S21;
 *   anelastic: -1348 (10000 xp + 112 yp) / 10^7 to C21, 1348 (10000 yp - 112 xp) / 10^7 to S21.
 * Given: a field in counts, n its degree, the lengths in entries; xp and yp, the pole's offsets from its mean in whole
 * micro-arcseconds, xp towards Greenwich and yp towards 90 degrees WEST, each -1,000,000..1,000,000; a Love model. Arcseconds
 * in a double are llround(1e6 * x): handed over as they are, C would cut them to 0.
 * Done: the corrections of C21 and S21 are added.
 * Refused: 100; 1, 2; 15. */
SURFGIMLET_ANSWER uint32_t surfgimlet_pole_tide(uint32_t n, int64_t *c, size_t c_length, int64_t *s, size_t s_length,
                                                int64_t xp, int64_t yp, uint32_t love_model);

/* Ocean tide of a model sheet. All numbers of a sheet are little-endian, each section comes after its 16-bit count:
 *   lines (1..128): six signed bytes, the multipliers, each -13..13, no two lines with the same six;
 *   tides (1..32): one signed 32-bit admittance per line, in millionths, their sizes adding to at most 4,000,000;
 *   places (0..90): degree byte 1..12, order byte at most the degree, ascending by degree, then order; then per tide
 *     four signed 32-bit counts, C cos, S cos, C sin, S sin, each within 2^24, those of S 0 at order 0.
 * Given: a field in counts, n its degree, the lengths in entries; a sheet and its length in bytes; the phases; a frame.
 * Done: the sheet's corrections are added at its places; with the centre of mass, degree 1 keeps its values.
 * Refused: 100; 1, 2; 7, 8, 16, 9. */
SURFGIMLET_ANSWER uint32_t surfgimlet_ocean_tide(uint32_t n, int64_t *c, size_t c_length, int64_t *s, size_t s_length,
                                                 const uint8_t *sheet, size_t sheet_length, surfgimlet_phases phases,
                                                 uint32_t frame);

/* One C20 moved between permanent systems.
 * Given: a C20 in counts, the system it is in, the one wanted, a Love model.
 * Answered: in *moved, the C20 in the system wanted, in counts. Moved back under the same Love model it is the C20 given,
 * unless the move back is refused: from near the range's end a C20 may be moved out of the range.
 * Refused: 100; 2. */
SURFGIMLET_ANSWER uint32_t surfgimlet_move_c20(int64_t c20, uint32_t from, uint32_t to, uint32_t love_model, int64_t *moved);

/* The multipliers that a Doodson number writes: 165555 is 1, 1, 0, 0, 0, 0.
 * Given: a number of six decimal digits. Write 55565 for 055,565: in C a leading zero makes a number octal.
 * Answered: the six multipliers, of tau, s, h, p, N', ps.
 * Refused: 10. */
SURFGIMLET_ANSWER uint32_t surfgimlet_multipliers_of(uint32_t number, int32_t multipliers[6]);

/* The Doodson number that writes six multipliers, the first 0..9, the others -5..4.
 * Given: the multipliers of tau, s, h, p, N', ps.
 * Answered: in *number.
 * Refused: 10. */
SURFGIMLET_ANSWER uint32_t surfgimlet_number_of(const int32_t multipliers[6], uint32_t *number);

/* A printed line of Tables 6.2 by its Doodson number.
 * Given: a number of six decimal digits, as above.
 * Answered: its index 0..48 (diurnal, long period, semidiurnal) and its two printed amplitudes in tenths of 10^-12, that is
 * in 100 counts: elastic and anelastic, in phase and out of phase, or a semidiurnal one twice.
 * Refused: 10; 11. */
SURFGIMLET_ANSWER uint32_t surfgimlet_find_line(uint32_t number, size_t *index, int64_t *first, int64_t *second);

/* Gravity field files: ICGEM's, of product type gravity_field, as bytes in memory. A line ends with LF, CR or both; words
 * stand between blanks, which are spaces and tabs; a line without a word is passed over.
 *
 * The header is what stands before the first line that begins with end_of_head; where a line of it begins with
 * begin_of_head, once at most, what stands after that. Its entries, each at most once, are a keyword and a value:
 *   product_type gravity_field; max_degree, a whole number; earth_gravity_constant or gravity_constant, in m3/s2; radius,
 *   in metres: all required;
 *   norm fully_normalized, modelname and errors: not required, the values of the last two not looked at;
 *   tide_system tide_free, zero_tide or mean_tide: any other is refused with 20, and so is none.
 * Other lines and the words behind a value are passed over. Constant and radius are rounded to the nearest whole m3/s2 and
 * millimetre; outside 0..2^64 - 1 they are malformed.
 *
 * Each line after the header is gfc, degree, order, C, S and 0, 2 or 4 words more, which are passed over; the degree is at
 * most max_degree, the order at most the degree. A decimal may have a sign, a dot and an exponent, its letter E, e, D or d;
 * it is taken exactly, however long, and rounded once to the nearest, an exact half going away from zero. */

/* A field's text: 9 lines of header and one for each place by rising degree, then order, each coefficient with all its 15
 * decimals. Every line has 53 characters and a line feed. Read again it gives the same counts and the same four numbers.
 * Given: a field in counts, n its degree, the lengths in entries; the gravity constant in m3/s2; the radius in millimetres;
 * the permanent system that the field is in; an output and its length in bytes.
 * Done: the text stands at the output's start, without a zero byte behind it; every byte after it stays.
 * Answered: in *written, the text's length, SURFGIMLET_FILE_BYTES(n).
 * Refused: 100; 1, 2; 21. */
SURFGIMLET_ANSWER uint32_t surfgimlet_write_field(uint32_t n, const int64_t *c, size_t c_length, const int64_t *s, size_t s_length,
                                                  uint64_t constant, uint64_t radius, uint32_t system, uint8_t *out,
                                                  size_t out_length, size_t *written);

/* A file's degree, without the lists: which lists surfgimlet_read_field is to be lent.
 * Given: a file and its length in bytes, at most 131,072; more is malformed.
 * Answered: the degree, the gravity constant in m3/s2, the radius in millimetres and the permanent system.
 * Refused: 17, 18, 19, 20, each told from the whole file, as by surfgimlet_read_field. */
SURFGIMLET_ANSWER uint32_t surfgimlet_file_head(const uint8_t *text, size_t text_length, uint32_t *degree, uint64_t *constant,
                                                uint64_t *radius, uint32_t *system);

/* A file read into a field.
 * Given: a file and its length in bytes, at most 131,072; two lists of the file's degree, the lengths in entries, of which
 * nothing is read.
 * Done: every entry of both lists is set: to the nearest count of its line's C and S, or to 0 where the file has no line of
 * its place.
 * Answered: the degree, the gravity constant in m3/s2, the radius in millimetres and the permanent system.
 * Refused: 17, 18, 19, 20; 1. */
SURFGIMLET_ANSWER uint32_t surfgimlet_read_field(const uint8_t *text, size_t text_length, int64_t *c, size_t c_length, int64_t *s,
                                                 size_t s_length, uint32_t *degree, uint64_t *constant, uint64_t *radius,
                                                 uint32_t *system);

#ifdef __cplusplus
}
#endif

#endif
