/* classes.h: how many answers there were of each class. */
#ifndef CLASSES_H
#define CLASSES_H

#include "calls.h"

#include <stdbool.h>

/* The bytes of a row behind its kind. */
size_t body_size(uint8_t kind);

/* The fraction in the body of a Number: sign and size of the whole number above
 * the line, and the divisor. */
struct fraction {
    bool is_negative;
    uint64_t size;
    uint16_t divisor;
};
struct fraction fraction_of(const uint8_t *body);

/* Of an accepted report: how long the selector of its frame or message is, how long
 * the supplement wants it, and whether it has the layout. */
struct selector {
    size_t length;
    size_t asked;
    bool has_layout;
};
struct selector selector_of(const struct request *request);

/* Counts a request with the answer and output of the judge. */
void count_classes(const struct request *request, uint64_t answer, const uint8_t *out);

/* Prints the counts of a call and answers whether no class of it is empty. */
bool show_classes(enum call call);

#endif
