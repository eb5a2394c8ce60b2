/* Fuzz of files: files COUNT, the good files of seeds.py at its standard input, writes and reads every degree, then writes COUNT fields of a fixed seed and
 * reads COUNT files that are changed; and holds each answer, entry and byte to model_files.h and model_reading.h. */
#define _DEFAULT_SOURCE
#include "draw.h"
#include "lent.h"
#include "model_files.h"
#include "model_reading.h"

#define BEFORE 64 /* bytes before an output, which no call touches */
#define MOST_ROOM 140000

enum { WRITE_FIELD, READ_FIELD, FILE_HEAD, CALLS };
static const char *names[CALLS] = {"write_field", "read_field", "file_head"};
static long answered[CALLS][101], differences;

/* what an answer alone does not tell, of writing and of reading */
enum { SYSTEM_AND_1, SYSTEM_AND_21, SHAPE_AND_21, RANGE_AND_21, EXACT, ONE_SHORT, LONGER, OF_WRITING,
    TWINS_AND_19 = OF_WRITING, TWINS_AND_20, RANGE_AND_20, SYSTEM_AND_LISTS, TWINS_ABOVE_60, HIGH_DEGREE, LOW_DEGREE, C_BEYOND, S_BEYOND, PLACE_MISSING,
    S_OF_ORDER_0, AT_THE_END, FULL, TOO_LONG, EVENTS };
static const char *events[EVENTS] = {"100 before 1 or 2", "100 before 21", "1 before 21", "2 before 21", "an output of exactly the text's length",
    "an output one byte short", "a longer output",
    "18 before 19", "18 before 20", "19 before 20", "20 with lists that do not fit", "a place twice above degree 60", "a degree above 60", "a degree below 4",
    "a C out of range", "an S out of range", "a place missing in a file accepted", "an S of order 0 that is not 0", "an entry at an end of the range",
    "a file of 131,072 bytes accepted", "a file of one byte more"};
static long met[EVENTS];

static void expect(int call, uint32_t answer, uint32_t told, int as_told)
{
    answered[call][told]++;
    if (answer == told && as_told) return;
    if (differences++ < 20)
        printf("%s: answered %" PRIu32 ", the model %" PRIu32 "%s\n", names[call], answer, told,
               as_told ? "" : ", and a byte, an entry, a result or a guard differs");
}

/* ---- writing */

/* the largest, its halves, powers of ten and one less, any: each width that there is */
static uint64_t unsigned_64(void)
{
    uint64_t x = 1;
    switch (below(6)) {
    case 0: return below(2) ? UINT64_MAX : UINT64_C(1) << 63;
    case 1: return below(1001);
    case 2: return any() >> below(64);
    case 3: return any();
    default: for (uint64_t left = below(20); left > 0; left--) x *= 10; return x - below(2);
    }
}

static void meet_writing(uint32_t n, lent *c, lent *s, size_t room, uint32_t told)
{
    uint32_t of_field = model_field(n, entries(c), c->length, entries(s), s->length);
    size_t length = n < 62 ? model_file_bytes(n) : MOST_ROOM;
    met[SYSTEM_AND_1] += told == 100 && of_field;
    met[SYSTEM_AND_21] += told == 100 && !of_field && room < length;
    met[SHAPE_AND_21] += told == 1 && room < length;
    met[RANGE_AND_21] += told == 2 && room < length;
    met[EXACT] += told == 0 && room == length;
    met[ONE_SHORT] += told == 21 && room + 1 == length;
    met[LONGER] += told == 0 && room > length;
}

/* the field written into so many bytes, which end at the edge and hold anything before */
static void write_field(uint32_t n, lent *c, lent *s, uint32_t system, size_t room)
{
    static uint8_t wanted[BEFORE + MOST_ROOM];
    static lent c2, s2;
    uint8_t *got;
    uint64_t constant = unsigned_64(), radius = unsigned_64();
    results of_call = fresh(), as_told = fresh();
    uint32_t answer, told;
    memset(wanted, (int)below(256), BEFORE + room);
    got = at_the_edge(wanted, BEFORE + room);
    memcpy(&c2, c, sizeof c2); memcpy(&s2, s, sizeof s2);
    told = model_write_field(n, entries(c), c->length, entries(s), s->length, constant, radius, system, wanted + BEFORE, room, &as_told.written);
    meet_writing(n, c, s, room, told);
    answer = surfgimlet_write_field(n, or_null(c), c->length, or_null(s), s->length, constant, radius, system, room || one_in(2) ? got + BEFORE : NULL, room,
                                    &of_call.written);
    expect(WRITE_FIELD, answer, told, !memcmp(got, wanted, BEFORE + room) && same_results(&of_call, &as_told) && same(c, &c2) && same(s, &s2));
}

/* bytes for a text of degree n: as many, one less or more, a line less, none, any number */
static size_t room_for(uint32_t n)
{
    size_t length = n < 62 ? model_file_bytes(n) : 1000 + below(MOST_ROOM - 4000);
    switch (below(8)) {
    case 0: return length - 1;
    case 1: return length + 1;
    case 2: return length - MODEL_LINE;
    case 3: return one_in(2) ? 0 : below(MOST_ROOM);
    case 4: return length + below(2000);
    default: return length;
    }
}

static void write_any(void)
{
    static lent c, s;
    uint32_t n = field(&c, &s);
    write_field(n, &c, &s, choice(3), room_for(n));
}

/* a field of degree n, its entries all at the range's ends or of any size */
static void fill(uint32_t n, lent *c, lent *s, int ends)
{
    lend(c, model_size(n)); lend(s, model_size(n));
    for (size_t i = 0; i < c->length; i++) {
        entries(c)[i] = ends ? end() : entry();
        entries(s)[i] = ends ? end() : entry();
    }
}

static void write_every_degree(void)
{
    static lent c, s;
    for (uint32_t n = 4; n <= 60; n++) {
        size_t length = SURFGIMLET_FILE_BYTES(n), rooms[5] = {length, length - 1, length + 1, length + 4321, 0};
        for (int i = 0; i < 5; i++) {
            fill(n, &c, &s, i == 0);
            write_field(n, &c, &s, (n + (uint32_t)i) % 3, rooms[i]);
        }
    }
}

/* ---- reading */

#define MOST_SEEDS 200

typedef struct { uint8_t bytes[MOST_ROOM]; size_t length; } file;

static struct { uint8_t *bytes; size_t length; } seeds[MOST_SEEDS];
static size_t seed_count;

/* the files at standard input */
static void read_seeds(void)
{
    static char hex[2 * MOST_ROOM + 1];
    size_t length;
    while (seed_count < MOST_SEEDS && scanf("%zu %280000s", &length, hex) == 2) {
        uint8_t *bytes = malloc(length);
        if (!bytes) { puts("files: no memory"); exit(1); }
        for (size_t i = 0; i < length; i++) {
            char pair[3] = {hex[2 * i], hex[2 * i + 1], 0};
            bytes[i] = (uint8_t)strtoul(pair, NULL, 16);
        }
        seeds[seed_count].bytes = bytes;
        seeds[seed_count++].length = length;
    }
    if (seed_count < 50) { puts("files: too few files to change"); exit(1); }
}

/* these bytes in place of some, where there is room */
static void splice(file *f, size_t at, size_t old, const void *bytes, size_t count)
{
    if (f->length - old + count > MOST_ROOM) return;
    memmove(f->bytes + at + count, f->bytes + at + old, f->length - at - old);
    memcpy(f->bytes + at, bytes, count);
    f->length += count - old;
}

static int ends_line(uint8_t b) { return b == '\n' || b == '\r'; }
static int in_word(uint8_t b) { return !ends_line(b) && b != ' ' && b != '\t'; }

/* the word at a place or just before it, or of length 0 */
static size_t word_at(const file *f, size_t *at)
{
    size_t past = *at;
    while (*at > 0 && in_word(f->bytes[*at - 1])) --*at;
    while (past < f->length && in_word(f->bytes[past])) past++;
    return past - *at;
}

/* the line at a place, its end with it */
static size_t line_at(const file *f, size_t *at)
{
    size_t past = *at;
    while (*at > 0 && !ends_line(f->bytes[*at - 1])) --*at;
    while (past < f->length && !ends_line(f->bytes[past])) past++;
    return past + (past < f->length) - *at;
}

/* a byte that has a meaning in a file or is taken for one, or any */
static uint8_t telling(void)
{
    static const uint8_t bytes[] = " \t\n\r0123456789+-.EeDdFfGgQqcx_\0\x0b\x0c\x1c\x7f\x80\x85\xa0\xff";
    return one_in(4) ? (uint8_t)any() : bytes[below(sizeof bytes - 1)];
}

/* digits, a dot and an exponent, now and then one that no power is formed of: the value is near the range, near a half of a count, or anything */
static size_t a_decimal(char *out)
{
    static const char *far[] = {"999999999999", "4294967311", "18446744073709551601", "18446744073709551616", "00000000000000000000000000007"};
    static const char *near[] = {"1152921504606846976", "1152921504606846977", "11529215046068469764", "11529215046068469765", "115292150460684697649", "5",
        "50", "500000000000000001", "49999999999999999999", "15", "25", "18446744073709551615", "18446744073709551616", "184467440737095516154",
        "184467440737095516155", "0", "00"};
    char digits[80] = "";
    int length, dot, power = (int)within(20) - 12;
    if (one_in(2)) strcpy(digits, near[below(sizeof near / sizeof near[0])]);
    else snprintf(digits, sizeof digits, "%" PRIu64, any() >> below(64));
    length = (int)strlen(digits);
    dot = (int)below((uint64_t)length + 1);
    if (one_in(2)) power = length - dot - 15 - one_in(3) - (one_in(2) ? 0 : length - 19); /* counts are all digits, or the first 19, or but one of them */
    length = snprintf(out, 100, "%s%.*s.%s", one_in(3) ? "-" : one_in(4) ? "+" : "", dot, digits, digits + dot);
    if (one_in(12)) return (size_t)(length + snprintf(out + length, 100, "%c%s%s", "EeDd"[below(4)], one_in(2) ? "-" : one_in(2) ? "+" : "", far[below(5)]));
    if (one_in(8)) return (size_t)length;
    return (size_t)(length + snprintf(out + length, 100, "%c%s%d", "EeDd"[below(4)], power >= 0 && one_in(2) ? "+" : "", power));
}

/* a word of a file, or one that is nearly so */
static size_t a_word(char *out)
{
    static const char *words[] = {"gfc", "gfct", "GFC", "end_of_head", "begin_of_head", "product_type", "gravity_field", "modelname", "earth_gravity_constant",
        "gravity_constant", "radius", "max_degree", "errors", "norm", "fully_normalized", "tide_system", "tide_free", "zero_tide", "mean_tide", "unknown",
        "0", "00", "1", "2", "02", "3", "4", "5", "60", "61", "18446744073709551620", "+1", "-0", ".", "+", "1.", ".1", "1e", "e1", "1e+", "1.2.3", "1d5",
        "1q5", "1Q5", "nan", "#", "1e1.", "0x1"};
    if (one_in(2)) return a_decimal(out);
    strcpy(out, words[below(sizeof words / sizeof words[0])]);
    return strlen(out);
}

static void replace_word(file *f)
{
    char word[200];
    size_t at = below(f->length), old = word_at(f, &at), length = a_word(word);
    splice(f, at, old, word, length);
}

static void exchange_words(file *f)
{
    static uint8_t kept[MOST_ROOM];
    size_t one = below(f->length), other = one_in(2) ? below(f->length) : one + below(40), length, of_other, between;
    if (other >= f->length) return;
    length = word_at(f, &one);
    of_other = word_at(f, &other);
    if (one > other || one + length > other) return;
    between = other - one - length;
    memcpy(kept, f->bytes + one, length + between + of_other);
    memcpy(f->bytes + one, kept + length + between, of_other);
    memcpy(f->bytes + one + of_other, kept + length, between);
    memcpy(f->bytes + one + of_other + between, kept, length);
}

/* a line doubled, left out or put elsewhere, now and then one that may not stand there */
static void move_line(file *f)
{
    static const char *lines[] = {"begin_of_head\n", "end_of_head =\n", "max_degree 5\n", "gravity_constant 1\n", "radius\n", "norm none\n", "gfct 2 0 1 0\n",
        "gfc 2 0 1 0\n", "# x\n"};
    static uint8_t kept[MOST_ROOM];
    size_t from = below(f->length), length = line_at(f, &from), to;
    memcpy(kept, f->bytes + from, length);
    if (one_in(4)) {
        const char *line = lines[below(9)];
        splice(f, one_in(2) ? from : 0, 0, line, strlen(line));
        return;
    }
    if (one_in(3)) splice(f, from, length, "", 0);
    if (!f->length || one_in(4)) return;
    to = below(f->length);
    line_at(f, &to);
    splice(f, to, 0, kept, length);
}

/* the value of an entry, where it stands */
static void set_entry(file *f, const char *keyword, const char *value)
{
    for (size_t at = 0, length; at < f->length; at += length + 1) {
        if (!(length = word_at(f, &at)) || length != strlen(keyword) || memcmp(f->bytes + at, keyword, length)) continue;
        for (at += length; at < f->length && !in_word(f->bytes[at]); at++) continue;
        length = word_at(f, &at);
        splice(f, at, length, value, strlen(value));
        return;
    }
}

static void change_entry(file *f)
{
    static const char *degrees[] = {"3", "0", "61", "60", "060", "4", "2190", "18446744073709551620", "4294967300", "7", "+7", "7."};
    static const char *systems[] = {"tide_free", "zero_tide", "mean_tide", "unknown", "mean_tides", "zero"};
    char word[200];
    a_decimal(word);
    switch (below(4)) {
    case 0: set_entry(f, "max_degree", degrees[below(12)]); break;
    case 1: set_entry(f, "tide_system", systems[below(6)]); break;
    case 2: set_entry(f, "radius", word); break;
    default: set_entry(f, one_in(2) ? "earth_gravity_constant" : "gravity_constant", word);
    }
}

/* a line of data behind the last: of any place, of one above degree 60 too, sometimes twice */
static void add_line(file *f)
{
    static const char *degrees[] = {"0", "2", "4", "5", "60", "61", "62", "2190", "4294967298", "18446744073709551618", "18446744073709551619"};
    static const char *most[] = {"61", "2190", "18446744073709551618", "18446744073709551620"};
    char line[500], c[200], s[200];
    uint64_t l = below(11), m = one_in(2) ? l : below(l + 1);
    int length, twice = one_in(3);
    a_decimal(c); a_decimal(s);
    length = snprintf(line, sizeof line, "\ngfc %s%s %s%s %s %s%s", one_in(4) ? "00" : one_in(30) ? "+" : "", degrees[l], one_in(4) ? "0" : "",
                      degrees[m], c, s, one_in(4) ? " x y" : "");
    if (l > 4 && !one_in(4)) set_entry(f, "max_degree", most[below(4)]);
    for (int i = 0; i <= twice; i++) splice(f, f->length, 0, line, (size_t)length);
}

/* the header alone, now and then of a degree that is too low */
static void cut_data(file *f)
{
    if (one_in(6)) set_entry(f, "max_degree", one_in(2) ? "3" : "02");
    for (size_t at = 0, length; at < f->length; at += length) {
        length = line_at(f, &at);
        if (length > 11 && !memcmp(f->bytes + at, "end_of_head", 11)) f->length = at + length;
    }
}

/* blanks up to the most bytes that a file may have, or to one more or less */
static void pad(file *f)
{
    size_t goal = 131071 + below(3);
    int before = one_in(2), blank = one_in(2) ? ' ' : one_in(2) ? '\n' : one_in(2) ? '\r' : '\t';
    if (f->length >= goal) return;
    if (before) memmove(f->bytes + goal - f->length, f->bytes, f->length);
    memset(f->bytes + (before ? 0 : f->length), blank, goal - f->length);
    f->length = goal;
}

/* a bit of a byte turned, the byte exchanged, one put before it, or it left out */
static void change_byte(file *f, size_t at, uint64_t how)
{
    uint8_t byte = telling();
    switch (how) {
    case 0: f->bytes[at] ^= (uint8_t)(1 << below(8)); break;
    case 1: splice(f, at, 1, &byte, 1); break;
    case 2: splice(f, at, 0, &byte, 1); break;
    default: splice(f, at, 1, "", 0);
    }
}

static void take_seed(file *f, size_t seed)
{
    f->length = seeds[seed].length;
    memcpy(f->bytes, seeds[seed].bytes, f->length);
}

/* a good file, or its header, changed up to four times, in one way after another */
static void draw_file(file *f)
{
    take_seed(f, below(seed_count));
    if (one_in(4)) cut_data(f);
    for (uint64_t left = below(5); left > 0 && f->length; left--)
        switch (below(8)) {
        case 0: case 1: change_byte(f, below(f->length), below(4)); break;
        case 2: replace_word(f); break;
        case 3: exchange_words(f); break;
        case 4: move_line(f); break;
        case 5: change_entry(f); break;
        case 6: add_line(f); break;
        default: if (one_in(16)) f->length = below(f->length); else if (one_in(6)) pad(f); else add_line(f);
        }
}

/* lists of this length, or of another, with anything in them */
static void lend_lists(size_t fit, lent *c, lent *s)
{
    size_t lengths[2] = {fit, fit};
    if (one_in(8)) lengths[below(2)] = one_in(2) ? fit - 1 : one_in(2) ? fit + 1 : below(LONGEST);
    if (one_in(64)) lengths[0] = lengths[1] = one_in(2) ? 0 : one_in(2) ? 1891 : 15;
    lend(c, lengths[0]); lend(s, lengths[1]);
    for (size_t i = 0; i < c->length; i++) entries(c)[i] = (int64_t)any();
    for (size_t i = 0; i < s->length; i++) entries(s)[i] = (int64_t)any();
}

static void meet_reading(const model_file *f, size_t length, lent *c, lent *s)
{
    const uint32_t told = f->refusal;
    int ends = 0, s_of_0 = 0;
    for (size_t i = 0; i < f->count && told != 17; i++) {
        const model_data *d = &f->data[i];
        met[C_BEYOND] += told == 19 && model_beyond_range(d->c);
        met[S_BEYOND] += told == 19 && model_beyond_range(d->s);
        s_of_0 |= told == 0 && model_at_most(d->m, 1) == 0 && d->s.size;
        ends |= told == 0 && (d->c.size == (uint64_t)LIMIT || d->s.size == (uint64_t)LIMIT);
    }
    met[TWINS_AND_19] += told == 18 && model_out_of_range(f);
    met[TWINS_AND_20] += told == 18 && f->system < 0;
    met[RANGE_AND_20] += told == 19 && f->system < 0;
    met[SYSTEM_AND_LISTS] += told == 20 && (c->length != model_size(model_degree(f)) || s->length != c->length);
    met[TWINS_ABOVE_60] += told == 18 && !model_low_twins(f);
    met[HIGH_DEGREE] += told == 19 && model_degree(f) == 61;
    met[LOW_DEGREE] += told == 19 && model_degree(f) < 4;
    met[PLACE_MISSING] += told == 0 && f->count < c->length;
    met[S_OF_ORDER_0] += s_of_0;
    met[AT_THE_END] += ends;
    met[FULL] += told == 0 && length == 131072;
    met[TOO_LONG] += told == 17 && length == 131073;
}

/* both calls on a file that ends at the edge */
static void read_file(const uint8_t *bytes, size_t length)
{
    static lent c, s, c2, s2;
    static model_file f;
    const uint8_t *text = length || one_in(2) ? at_the_edge(bytes, length) : NULL;
    results got = fresh(), as_told = fresh();
    uint32_t answer, told;
    model_read(bytes, length, &f);
    lend_lists(f.refusal == 0 || f.refusal == 20 ? model_size(model_degree(&f)) : 15, &c, &s);
    memcpy(&c2, &c, sizeof c); memcpy(&s2, &s, sizeof s);
    answer = surfgimlet_file_head(text, length, &got.degree, &got.constant, &got.radius, &got.system);
    told = model_file_head(&f, &as_told.degree, &as_told.constant, &as_told.radius, &as_told.system);
    expect(FILE_HEAD, answer, told, same_results(&got, &as_told));
    got = fresh(); as_told = fresh();
    answer = surfgimlet_read_field(text, length, or_null(&c), c.length, or_null(&s), s.length, &got.degree, &got.constant, &got.radius, &got.system);
    told = model_read_field(&f, entries(&c2), c2.length, entries(&s2), s2.length, &as_told.degree, &as_told.constant, &as_told.radius, &as_told.system);
    expect(READ_FIELD, answer, told, same(&c, &c2) && same(&s, &s2) && same_results(&got, &as_told));
    if (length && memcmp(text, bytes, length)) { differences++; puts("the file is changed"); }
    meet_reading(&f, length, &c, &s);
}

static void read_any(void)
{
    static file f;
    draw_file(&f);
    read_file(f.bytes, f.length);
}

/* every byte of a file changed in turn, in each way */
static void read_every_byte(size_t seed)
{
    static file f;
    for (size_t at = 0; at < seeds[seed].length; at++)
        for (uint64_t how = 0; how < 4; how++) {
            take_seed(&f, seed);
            change_byte(&f, at, how);
            read_file(f.bytes, f.length);
        }
}

static size_t shortest(void)
{
    size_t found = 0;
    for (size_t i = 1; i < seed_count; i++)
        if (seeds[i].length < seeds[found].length) found = i;
    return found;
}

/* what the archive writes, it reads again: the same entries and the same four numbers */
static void read_again(uint32_t n, lent *c, lent *s)
{
    static uint8_t text[MOST_ROOM];
    static lent c2, s2;
    const uint64_t constant = unsigned_64(), radius = unsigned_64();
    const uint32_t system = (uint32_t)below(3);
    results got = fresh(), told = fresh();
    uint32_t answer;
    answer = surfgimlet_write_field(n, entries(c), c->length, entries(s), s->length, constant, radius, system, text, sizeof text, &told.written);
    if (answer) { expect(WRITE_FIELD, answer, 0, 1); return; }
    lend(&c2, c->length); lend(&s2, s->length);
    for (size_t i = 0; i < c->length; i++) entries(&c2)[i] = entries(&s2)[i] = UNTOUCHED;
    told.degree = n; told.constant = constant; told.radius = radius; told.system = system;
    got.written = told.written;
    answer = surfgimlet_read_field(text, got.written, entries(&c2), c2.length, entries(&s2), s2.length, &got.degree, &got.constant, &got.radius, &got.system);
    expect(READ_FIELD, answer, 0, same(c, &c2) && same(s, &s2) && same_results(&got, &told));
    read_file(text, told.written);
}

static void read_every_degree(void)
{
    static lent c, s;
    for (uint32_t n = 4; n <= 60; n++)
        for (int ends = 0; ends < 2; ends++) {
            fill(n, &c, &s, ends);
            read_again(n, &c, &s);
        }
}

int main(int argc, char **argv)
{
    static const int numbers[CALLS][7] = {{0, 1, 2, 21, 100, -1}, {0, 17, 18, 19, 20, 1, -1}, {0, 17, 18, 19, 20, -1}};
    long count = argc > 1 ? atol(argv[1]) : 100000, missing = 0;
    write_every_degree();
    for (long i = 0; i < count; i++) write_any();
    read_seeds();
    read_every_degree();
    read_every_byte(0);
    read_every_byte(shortest());
    for (long i = 0; i < count; i++) read_any();
    printf("files: exact halves read: %ld above zero, %ld below\n", model_read_halves[0], model_read_halves[1]);
    missing += (model_read_halves[0] == 0) + (model_read_halves[1] == 0);
    for (int call = 0; call < CALLS; call++) {
        printf("files: %s answered", names[call]);
        for (const int *k = numbers[call]; *k >= 0; k++) {
            printf(" %d %ld times,", *k, answered[call][*k]);
            missing += answered[call][*k] == 0;
        }
        puts("");
    }
    for (int i = 0; i < EVENTS; i++) {
        printf("files: %s, %s: %ld times\n", i < OF_WRITING ? "writing" : "reading", events[i], met[i]);
        missing += met[i] == 0;
    }
    printf("files: 57 degrees, %ld inputs, %ld differences, %ld answers, events or halves never met\n", count, differences, missing);
    return differences != 0 || missing != 0;
}
