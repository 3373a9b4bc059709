#define _DEFAULT_SOURCE

#include "lent.h"

#include <stdio.h>
#include <stdlib.h>
#include <string.h>
#include <sys/mman.h>
#include <unistd.h>

static uint8_t guard_byte(size_t i)
{
    return (uint8_t)(0xC3 ^ i * 7);
}

/* A stretch of MOST_LENT_BYTES between two pages that can't be touched. */
static uint8_t *stretch(size_t i)
{
    static uint8_t *stretches[MOST_LENT];
    if (stretches[i])
        return stretches[i];
    size_t page = (size_t)sysconf(_SC_PAGESIZE);
    uint8_t *all = mmap(NULL, MOST_LENT_BYTES + 2 * page, PROT_NONE, MAP_PRIVATE | MAP_ANONYMOUS,
                        -1, 0);
    if (all == MAP_FAILED || MOST_LENT_BYTES % page != 0 ||
        mprotect(all + page, MOST_LENT_BYTES, PROT_READ | PROT_WRITE) != 0) {
        perror("guard pages");
        exit(1);
    }
    return stretches[i] = all + page;
}

struct lent lend(size_t i, enum placement placement, const uint8_t *content, size_t length)
{
    struct lent lent = {.length = length};
    if (length > MOST_LENT_BYTES - GUARD_BYTES)
        abort();
    if (placement == IN_BLOCK) {
        lent.guard = lent.block = malloc(GUARD_BYTES + length);
        if (!lent.block)
            abort();
        lent.run = length ? lent.block + GUARD_BYTES : NULL;
    } else if (placement == BEFORE_PAGE) {
        lent.run = stretch(i) + MOST_LENT_BYTES - length;
        lent.guard = lent.run - GUARD_BYTES;
    } else {
        lent.run = stretch(i);
        lent.guard = lent.run + length;
    }
    for (size_t at = 0; at < GUARD_BYTES; at++)
        lent.guard[at] = guard_byte(at);
    if (length)
        memcpy(lent.run, content, length);
    return lent;
}

bool is_as_expected(const struct lent *lent, const uint8_t *expected)
{
    for (size_t at = 0; at < GUARD_BYTES; at++)
        if (lent->guard[at] != guard_byte(at))
            return false;
    return lent->length == 0 || memcmp(lent->run, expected, lent->length) == 0;
}

void take_back(struct lent *lent)
{
    free(lent->block);
}
