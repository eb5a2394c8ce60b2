/* What the fuzz runs draw: numbers of a fixed seed, choices, fields; and memory that ends at a page which may not be touched. */
#ifndef DRAW_H
#define DRAW_H

#include <stdio.h>
#include <stdlib.h>
#include <sys/mman.h>
#include "lent.h"
#include "model_field.h"

/* xorshift64*, the seed fixed */
static uint64_t state = UINT64_C(0x9e3779b97f4a7c15);

static uint64_t any(void)
{
    state ^= state >> 12; state ^= state << 25; state ^= state >> 27;
    return state * UINT64_C(2685821657736338717);
}

static uint64_t below(uint64_t n) { return (any() >> 11) % n; }
static int one_in(uint64_t n) { return below(n) == 0; }
static int64_t within(int64_t size) { return (int64_t)below(2 * (uint64_t)size + 1) - size; }

static int64_t end(void) { return one_in(2) ? LIMIT : -LIMIT; }

static int64_t entry(void)
{
    switch (below(8)) {
    case 0: return 0;
    case 1: return LIMIT;
    case 2: return -LIMIT;
    case 3: return within(LIMIT);
    default: return within(INT64_C(1) << (1 + below(60)));
    }
}

static int64_t bad_entry(void)
{
    static const int64_t bad[] = {LIMIT + 1, -LIMIT - 1, INT64_MAX, INT64_MIN, 2 * LIMIT};
    return bad[below(5)];
}

static uint32_t no_choice(uint32_t cases)
{
    const uint32_t bad[] = {cases + 1, cases + 2, 255, 256, 0x10000, 0x80000000, 0x80000001, 0xffffffff};
    return one_in(2) ? cases : bad[below(8)];
}

static uint32_t choice(uint32_t cases) { return one_in(40) ? no_choice(cases) : (uint32_t)below(cases); }

/* degree and lists: one in eight with a fault, one in eight with every entry at an end of the range */
static uint32_t field(lent *c, lent *s)
{
    uint32_t n = one_in(50) ? 4 + (uint32_t)below(57) : 4 + (uint32_t)below(10);
    size_t c_length, s_length;
    int ends;
    if (one_in(64)) n = one_in(2) ? 3 : 61; /* with lists of that degree's length */
    c_length = s_length = model_size(n);
    switch (below(64)) {
    case 0: c_length--; break;
    case 1: s_length--; break;
    case 2: c_length++; break;
    case 3: s_length++; break;
    case 4: n = one_in(2) ? 3 : 61; break;
    case 5: n = (uint32_t)any(); break;
    case 6: c_length = below(LONGEST); s_length = below(LONGEST); break;
    case 7: c_length = s_length = 0; break;
    }
    lend(c, c_length); lend(s, s_length);
    ends = one_in(8);
    for (size_t i = 0; i < c_length; i++) entries(c)[i] = ends ? end() : entry();
    for (size_t i = 0; i < s_length; i++) entries(s)[i] = ends ? end() : entry();
    if (one_in(16) && c_length && s_length) {
        if (one_in(2)) entries(c)[one_in(3) ? c_length - 1 : below(c_length)] = bad_entry();
        else entries(s)[one_in(3) ? s_length - 1 : below(s_length)] = bad_entry();
    }
    return n;
}

/* the end of some memory, before a page that may not be touched: what goes past it stops the run */
static uint8_t *edge(void)
{
    static uint8_t *at;
    const size_t page = 65536;
    if (!at) {
        uint8_t *room = mmap(NULL, 5 * page, PROT_READ | PROT_WRITE, MAP_PRIVATE | MAP_ANONYMOUS, -1, 0);
        if (room == MAP_FAILED || mprotect(room + 4 * page, page, PROT_NONE)) { puts("fuzz: no memory"); exit(1); }
        at = room + 4 * page;
    }
    return at;
}

static void *at_the_edge(const void *bytes, size_t length) { return memcpy(edge() - length, bytes, length); }

#endif
