#include "judged.h"

#include "classes.h"
#include "judge.h"
#include "lent.h"

#include <stdio.h>
#include <stdlib.h>

/* The decoder written by hand takes long over a long supplement. It runs along
 * because libFuzzer sees its branches, and not those of the archive. */
#define MOST_FOR_DECODER 2048

/* What fills an output before the call. */
static uint8_t filling(size_t i)
{
    return (uint8_t)(0x5A + i);
}

static void show_run(const char *name, const uint8_t *run, size_t length)
{
    printf("  %s, %zu bytes:", name, length);
    for (size_t i = 0; i < length; i++)
        printf(" %02X", run[i]);
    printf("\n");
}

static void stop(const char *what, const struct calls *calls, const struct request *request,
                 uint64_t expected, uint64_t given)
{
    printf("%s of %s: %s; the judge answers %016llX, it %016llX\n", call_names[request->call],
           calls->name, what, (unsigned long long)expected, (unsigned long long)given);
    for (size_t i = 0; i < runs_of(request->call); i++)
        show_run("run", request->in[i].bytes, request->in[i].length);
    printf("  output of %zu bytes\n", request->out_length);
    fflush(stdout);
    abort();
}

/* Lends everything in that placement, makes the call and compares the answer
 * and all memory; the request's output is what that of the call has to be. */
static void compare(const struct calls *calls, enum placement placement,
                    const struct request *request, uint64_t expected)
{
    uint8_t before[MOST_OUT];
    struct lent lent[MOST_LENT];
    struct request mine = *request;
    for (size_t i = 0; i < request->out_length; i++)
        before[i] = filling(i);
    for (size_t i = 0; i < MOST_RUNS; i++) {
        lent[i] = lend(i, placement, request->in[i].bytes, request->in[i].length);
        mine.in[i].bytes = lent[i].run;
    }
    lent[MOST_RUNS] = lend(MOST_RUNS, placement, before, request->out_length);
    mine.out = lent[MOST_RUNS].run;
    uint64_t given = answer_of(calls, &mine);
    if (given != expected)
        stop("another answer", calls, request, expected, given);
    if (!is_as_expected(&lent[MOST_RUNS], request->out))
        stop("other output, or a byte beside it touched", calls, request, expected, given);
    for (size_t i = 0; i < MOST_RUNS; i++)
        if (!is_as_expected(&lent[i], request->in[i].bytes))
            stop("an input, or a byte beside it touched", calls, request, expected, given);
    for (size_t i = 0; i < MOST_LENT; i++)
        take_back(&lent[i]);
}

uint64_t judged_answer(const struct request *request)
{
    for (size_t i = 0; i < request->out_length; i++)
        request->out[i] = filling(i);
    uint64_t expected = answer_of(&judge_calls, request);
    for (int placement = 0; placement < PLACEMENTS; placement++)
        compare(&archive_calls, (enum placement)placement, request, expected);
    if (request->in[0].length <= MOST_FOR_DECODER)
        compare(&decoder_calls, IN_BLOCK, request, expected);
    count_classes(request, expected, request->out);
    return expected;
}
