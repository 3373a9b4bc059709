/* stack.h: how deep a call goes. */
#ifndef STACK_H
#define STACK_H

#include "calls.h"

/* Bytes of stack that the call touches below those of an empty call. It runs
 * on a stack of its own that was painted before; the lowest word that lost its
 * paint is the mark. Done with two paints, so that a word which happens to be
 * left in the colour of one is seen with the other. */
size_t stack_depth(const struct calls *calls, const struct request *request);

#endif
