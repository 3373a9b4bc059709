/* cases.h: the inputs that are timed. */
#ifndef CASES_H
#define CASES_H

#include "calls.h"

#define CASE_COUNT 13

struct bench_case {
    const char *name;
    /* of a stream the first call; all of it is fed, in parts as long as this one's */
    struct request request;
    /* the most that the archive's time may be of the other's; 0 for none */
    double target;
};

/* The cases; they stand in memory that is filled at the first call. */
const struct bench_case *bench_cases(void);

#endif
