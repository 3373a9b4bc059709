/* judged.h: a request answered by all, and judged by the second program. */
#ifndef JUDGED_H
#define JUDGED_H

#include "calls.h"

/* The longest output that is lent. */
#define MOST_OUT 1024

/* Answers as the second program does, and leaves what it wrote in the request's
 * output. Stops the program if the archive, in some placement of memory, or the
 * decoder written by hand answers or leaves memory otherwise. */
uint64_t judged_answer(const struct request *request);

#endif
