/* The arguments of a command. */
#ifndef ARGUMENTS_H
#define ARGUMENTS_H

#include "bus.h"

#include <stdbool.h>
#include <stddef.h>

struct arguments {
    bool adapter, exact, json, strict, help;
    const struct bus *bus; /* NULL if none is said */
    size_t count;
    char **operands;
};

/* What is wrong with arguments, NULL for nothing, and the one that is. */
struct misuse {
    const char *fault, *what;
};

/* Sorts the options out of the arguments; the operands keep their order. "--"
 * ends the options, and "-" is an operand. */
struct misuse arguments_read(struct arguments *arguments, int count, char **values);

#endif
