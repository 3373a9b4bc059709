/* lent.h: memory lent to a call, with guards on both sides. */
#ifndef LENT_H
#define LENT_H

#include "calls.h"

#include <stdbool.h>

/* The input runs and the output. */
#define MOST_LENT (MOST_RUNS + 1)
/* The most bytes that one of them can have. */
#define MOST_LENT_BYTES 24576
#define GUARD_BYTES 64

/* Where a run lies: it ends before a page that can't be touched, it starts
 * behind one, or it is the end of a block of malloc, which the address
 * sanitizer watches. Guard bytes lie on the other side. An empty run is NULL
 * in the last. */
enum placement { BEFORE_PAGE, BEHIND_PAGE, IN_BLOCK };
#define PLACEMENTS 3

struct lent {
    uint8_t *run;
    size_t length;
    uint8_t *guard;
    uint8_t *block; /* to be freed, or NULL */
};

/* A copy of `content` as the i-th run of a call. */
struct lent lend(size_t i, enum placement placement, const uint8_t *content, size_t length);

/* Whether run and guard are as they were lent, or the run as `expected`. */
bool is_as_expected(const struct lent *lent, const uint8_t *expected);

void take_back(struct lent *lent);

#endif
