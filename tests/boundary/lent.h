/* Memory to lend, between guard zones: one comparison finds a wrong entry, an entry moved on refusal and a guard touched. */
#ifndef LENT_H
#define LENT_H

#include <stdint.h>
#include <string.h>
#include "surfgimlet.h"

#define GUARD 16
#define LONGEST 2100 /* a field of degree 62, which no call takes, has 2016 entries */
#define MOST_RECORDS 300 /* no call takes more than 64 */
#define UNTOUCHED INT64_C(0x5a5aa5a5c3c33c3c)

typedef struct {
    int64_t all[GUARD + LONGEST + GUARD];
    size_t length;
} lent;

static int64_t *entries(lent *l) { return l->all + GUARD; }

/* as lent to a call: of length 0 a null pointer is welcome */
static int64_t *or_null(lent *l) { return l->length ? entries(l) : NULL; }

static void lend(lent *l, size_t length)
{
    l->length = length;
    for (size_t i = 0; i < GUARD; i++) l->all[i] = l->all[GUARD + length + i] = UNTOUCHED;
}

static int same(const lent *a, const lent *b)
{
    return a->length == b->length && memcmp(a->all, b->all, (GUARD + a->length + GUARD) * sizeof a->all[0]) == 0;
}

/* Records to lend, a guard on either side; what a call reads it leaves as it was. */
typedef struct {
    surfgimlet_own_line all[1 + MOST_RECORDS + 1];
    size_t count;
} lent_records;

static inline void lend_records(lent_records *l, size_t count)
{
    l->count = count;
    memset(&l->all[0], 0x5a, sizeof l->all[0]);
    memset(&l->all[1 + count], 0x5a, sizeof l->all[0]);
}

/* Results of a call, each alone between guards; what they hold before is theirs to keep on refusal. */
typedef struct {
    uint64_t g0;
    int64_t moved;
    uint64_t g1;
    int32_t multipliers[6];
    uint64_t g2;
    uint32_t number;
    uint32_t g3;
    uint64_t g4;
    size_t index;
    uint64_t g5;
    int64_t first;
    uint64_t g6;
    int64_t second;
    uint64_t g7;
    uint32_t lines;
    uint32_t g8;
    uint32_t answer;
    uint32_t g9;
    surfgimlet_hour hour;
    uint64_t g10;
    size_t written;
    uint64_t g11;
    uint32_t degree;
    uint32_t g12;
    uint64_t constant;
    uint64_t g13;
    uint64_t radius;
    uint64_t g14;
    uint32_t system;
    uint32_t g15;
} results;

static results fresh(void)
{
    results r;
    memset(&r, 0x5a, sizeof r);
    return r;
}

static int same_results(const results *a, const results *b) { return memcmp(a, b, sizeof *a) == 0; }

#endif
