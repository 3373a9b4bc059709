/* judge.h: the second program behind the calls of rakhubole.h. */
#ifndef JUDGE_H
#define JUDGE_H

#include "calls.h"

extern const struct calls judge_calls;

/* The check byte of a run: on J1850, and on ISO 9141-2. */
typedef uint8_t check_byte_of(const uint8_t *run, size_t length);
check_byte_of judge_check_byte, judge_sum;

#endif
