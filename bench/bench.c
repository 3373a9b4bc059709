/* Compares the library with a decoder written by hand, in answers, time and
 * stack.
 *
 *   bench compare CRATES    both answer the same on the cases and the vectors
 *   bench times CRATES      compares, then times the cases
 *   bench stack CRATES      the deepest stack over the cases and the vectors
 *   bench list              the cases by number, call and name
 *   bench once CASE WHO     a case once, by archive or C, to be counted
 */
#define _POSIX_C_SOURCE 200809L

#include "cases.h"
#include "rakhubole.h"
#include "stack.h"
#include "streams.h"
#include "vectors.h"

#include <stdio.h>
#include <stdlib.h>
#include <string.h>
#include <time.h>

#define ROUNDS 41
/* What a round of one decoder takes at least. */
#define ROUND_NANOSECONDS 2e6
/* How much deeper the stack lies in each round: over all of them more than a
 * page, since a call takes longer where its arrays lie across two. */
#define ROUND_DEPTH 112

/* ---- Answers ---- */

/* Stops if the two differ in the number or in a byte of the output. */
static void compare(const struct request *request, const char *where)
{
    uint8_t outputs[2][BUFFER];
    uint64_t answers[2];
    const struct calls *both[2] = {&archive_calls, &decoder_calls};
    memset(outputs, 0xA5, sizeof outputs);
    for (int i = 0; i < 2; i++) {
        struct request mine = *request;
        mine.out = outputs[i];
        answers[i] = answer_of(both[i], &mine);
    }
    if (answers[0] == answers[1] && memcmp(outputs[0], outputs[1], BUFFER) == 0)
        return;
    printf("%s, %s: the archive answers %016llX, the C decoder %016llX, %s output\n", where,
           call_names[request->call], (unsigned long long)answers[0],
           (unsigned long long)answers[1],
           memcmp(outputs[0], outputs[1], BUFFER) ? "with other" : "with the same");
    exit(1);
}

/* Stops if the header's function that tells and advances in one does not give what
 * the decoder's two calls give; after 8 it takes nothing. */
static void compare_next(const struct request *request, const char *where)
{
    const uint8_t *state = request->in[0].bytes;
    struct run part = request->in[1];
    uint8_t wanted[RAKHUBOLE_STREAM_STATE], given[RAKHUBOLE_STREAM_STATE], runs[BUFFER];
    memcpy(wanted, state, sizeof wanted);
    memcpy(given, state, sizeof given);
    uint64_t told = decoder_calls.stream_read(state, part.bytes, part.length, runs,
                                              request->out_length);
    size_t to_take = 0, taken;
    if (told != RAKHUBOLE_OUT_TOO_SHORT)
        to_take = (size_t)decoder_calls.stream_advance(wanted, part.bytes, part.length);
    uint64_t answer = rakhubole_stream_next(given, part.bytes, part.length, runs,
                                            request->out_length, &taken);
    if (answer == told && taken == to_take && memcmp(given, wanted, sizeof given) == 0)
        return;
    printf("%s, rakhubole_stream_next: %016llX, %zu bytes taken; the C decoder %016llX, %zu\n",
           where, (unsigned long long)answer, taken, (unsigned long long)told, to_take);
    exit(1);
}

static void compare_request(const struct request *request, const char *where, void *state)
{
    (void)state;
    compare(request, where);
    if (request->call == CALL_STREAM_READ)
        compare_next(request, where);
}

static size_t visit_all(const char *crates, visit *visitor, void *state)
{
    for (size_t i = 0; i < CASE_COUNT; i++)
        visitor(&bench_cases()[i].request, bench_cases()[i].name, state);
    return CASE_COUNT + visit_vectors(crates, visitor, state);
}

static void compare_all(const char *crates)
{
    for (size_t i = 0; i < CASE_COUNT; i++) {
        if (RAKHUBOLE_REFUSAL(answer_of(&archive_calls, &bench_cases()[i].request)) != 0) {
            printf("%s: refused, so its time would say nothing\n", bench_cases()[i].name);
            exit(1);
        }
    }
    size_t cases = visit_all(crates, compare_request, NULL);
    printf("both decoders answer the same on %zu inputs\n", cases);
}

/* ---- Time ---- */

static double now(void)
{
    struct timespec time;
    clock_gettime(CLOCK_MONOTONIC, &time);
    return (double)time.tv_sec * 1e9 + (double)time.tv_nsec;
}

/* The call, or all those of a stream. */
static void run_case(const struct calls *calls, const struct request *request)
{
    if (request->call == CALL_STREAM_READ)
        feed_stream(calls, request->in[1].length);
    else
        answer_of(calls, request);
}

/* Nanoseconds of a case, run so often. */
static double time_of(const struct calls *calls, const struct request *request, size_t count)
{
    double start = now();
    for (size_t i = 0; i < count; i++)
        run_case(calls, request);
    return (now() - start) / (double)count;
}

static size_t cases_in_round(const struct calls *calls, const struct request *request)
{
    size_t count = 1;
    while (time_of(calls, request, count) * (double)count < ROUND_NANOSECONDS)
        count *= 2;
    return count;
}

/* The same so much further down the stack. */
static double time_below(size_t depth, const struct calls *calls, const struct request *request,
                         size_t count)
{
    volatile char above[depth + 1];
    above[depth] = 0;
    return time_of(calls, request, count) + above[depth];
}

static int compare_times(const void *a, const void *b)
{
    double x = *(const double *)a, y = *(const double *)b;
    return (x > y) - (x < y);
}

/* The median of all rounds. The two take turns, so that a busy machine slows
 * both. */
static void time_both(const struct request *request, double median[2])
{
    const struct calls *both[2] = {&archive_calls, &decoder_calls};
    size_t count[2] = {cases_in_round(both[0], request), cases_in_round(both[1], request)};
    double times[2][ROUNDS];
    for (size_t round = 0; round < ROUNDS; round++)
        for (int who = 0; who < 2; who++)
            times[who][round] = time_below(round * ROUND_DEPTH, both[who], request, count[who]);
    for (int who = 0; who < 2; who++) {
        qsort(times[who], ROUNDS, sizeof times[who][0], compare_times);
        median[who] = times[who][ROUNDS / 2];
    }
}

static void show_times(void)
{
    printf("\nNanoseconds of a call, median of %d rounds of at least %.0f ms, in turns,\n"
           "each at another place of the stack; of a stream those of all its calls, over\n"
           "%zu bytes with %d frames and %d ticks:\n\n",
           ROUNDS, ROUND_NANOSECONDS / 1e6, bench_stream().length, STREAM_FRAMES, STREAM_TICKS);
    printf("%-28s %12s %12s %8s   %s\n", "case", "archive", "C", "ratio", "target");
    for (size_t i = 0; i < CASE_COUNT; i++) {
        const struct bench_case *c = &bench_cases()[i];
        double median[2];
        time_both(&c->request, median);
        double ratio = median[0] / median[1];
        printf("%-28s %12.1f %12.1f %8.3f   ", c->name, median[0], median[1], ratio);
        if (c->target > 0)
            printf("at most %.1f: %s\n", c->target, ratio <= c->target ? "met" : "NOT MET");
        else
            printf("none\n");
    }
}

/* ---- Stack ---- */

struct depths {
    size_t archive[CALLS];
    size_t decoder[CALLS];
};

static void keep_deeper(size_t *deepest, size_t depth)
{
    if (depth > *deepest)
        *deepest = depth;
}

static void measure_depths(const struct request *request, const char *where, void *state)
{
    struct depths *depths = state;
    (void)where;
    keep_deeper(&depths->archive[request->call], stack_depth(&archive_calls, request));
    keep_deeper(&depths->decoder[request->call], stack_depth(&decoder_calls, request));
}

static void show_depths(const char *crates)
{
    struct depths depths = {{0}, {0}};
    size_t cases = visit_all(crates, measure_depths, &depths);
    printf("\nDeepest stack in bytes over %zu inputs, below that of an empty call:\n\n", cases);
    printf("%-28s %12s %12s\n", "call", "archive", "C");
    for (int call = 0; call < CALLS; call++)
        printf("%-28s %12zu %12zu\n", call_names[call], depths.archive[call], depths.decoder[call]);
}

/* ---- The command ---- */

static void list_cases(void)
{
    for (size_t i = 0; i < CASE_COUNT; i++)
        printf("%zu %s %s\n", i, call_names[bench_cases()[i].request.call], bench_cases()[i].name);
}

/* Answers whether the arguments name a case and a decoder. */
static int call_once(const char *number, const char *who)
{
    size_t i = strtoul(number, NULL, 10);
    const struct calls *calls = strcmp(who, archive_calls.name) == 0   ? &archive_calls
                                : strcmp(who, decoder_calls.name) == 0 ? &decoder_calls
                                                                       : NULL;
    if (i >= CASE_COUNT || !calls)
        return 0;
    run_case(calls, &bench_cases()[i].request);
    return 1;
}

int main(int count, char **words)
{
    const char *command = count > 1 ? words[1] : "";
    if (count == 3 && strcmp(command, "compare") == 0) {
        compare_all(words[2]);
    } else if (count == 3 && strcmp(command, "times") == 0) {
        compare_all(words[2]);
        show_times();
    } else if (count == 3 && strcmp(command, "stack") == 0) {
        show_depths(words[2]);
    } else if (count == 2 && strcmp(command, "list") == 0) {
        list_cases();
    } else if (count != 4 || strcmp(command, "once") != 0 || !call_once(words[2], words[3])) {
        fprintf(stderr, "usage: bench compare|times|stack CRATES | list | once CASE archive|C\n");
        return 2;
    }
    return 0;
}
