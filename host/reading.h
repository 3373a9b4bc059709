/* A report of the library, its rows taken apart and its lines named. */
#ifndef READING_H
#define READING_H

#include "bus.h"
#include "names.h"

/* A Number's parts: the bits of the double, and the fraction that gives it. */
struct number {
    uint64_t bits;
    int64_t above;
    uint16_t divisor;
};

/* A row: its kind, its body and its bytes. */
struct row {
    uint8_t kind;
    struct number number; /* the body of a Number */
    uint32_t body;        /* that of any other row, as a number */
    const uint8_t *bytes;
    size_t length;
};

struct reading {
    uint8_t rows[RAKHUBOLE_ROWS_MOST];
    size_t count;
    struct row items[RAKHUBOLE_ITEMS_MOST];
    struct row remainder, response, verdict;
    struct layout layout;
    bool is_named; /* each item has a label */
    struct label labels[RAKHUBOLE_ITEMS_MOST];
    size_t response_length; /* without its check byte */
};

/* Asks the library for the report of a frame of the bus under an accepted
 * supplement. The refusal, or 0 and the reading; -1 if the rows are not as the
 * papers say. */
int reading_make(struct reading *reading, const struct bus *bus,
                 const struct supplement *supplement, const struct runs *runs);

#endif
