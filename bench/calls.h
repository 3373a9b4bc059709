/* calls.h: a call with what is lent to it, and those who can answer it. */
#ifndef CALLS_H
#define CALLS_H

#include <stdbool.h>
#include <stddef.h>
#include <stdint.h>

/* Those without a bus in their name are of J1850, but for the supplement's and
 * the stream's. */
enum call {
    CALL_READ,
    CALL_WRITE,
    CALL_CHECK,
    CALL_REPORT,
    CALL_ISO_READ,
    CALL_ISO_WRITE,
    CALL_ISO_REPORT,
    CALL_STREAM_READ,
    CALL_STREAM_ADVANCE,
    CALL_STREAM_END,
    CALL_STREAM_PLACE
};
#define CALLS 11

#define MOST_RUNS 3

struct run {
    const uint8_t *bytes;
    size_t length;
};

/* The input runs in the order of the call's arguments, and the output. A state is
 * a run; the one that a call changes is the output, a copy of the first run. */
struct request {
    enum call call;
    struct run in[MOST_RUNS];
    uint8_t *out;
    size_t out_length;
};

/* The calls of rakhubole.h by their arguments: one run or two, and two or three
 * with the output; a state, a state and a run with the output, and a state that
 * is changed by a run. */
typedef uint64_t one_run_call(const uint8_t *, size_t);
typedef uint64_t two_run_call(const uint8_t *, size_t, const uint8_t *, size_t);
typedef uint64_t two_run_output_call(const uint8_t *, size_t, const uint8_t *, size_t, uint8_t *,
                                     size_t);
typedef uint64_t three_run_output_call(const uint8_t *, size_t, const uint8_t *, size_t,
                                       const uint8_t *, size_t, uint8_t *, size_t);
typedef uint64_t state_call(const uint8_t *);
typedef uint64_t state_output_call(const uint8_t *, const uint8_t *, size_t, uint8_t *, size_t);
typedef uint64_t state_change_call(uint8_t *, const uint8_t *, size_t);

/* All of them, whoever answers. */
struct calls {
    const char *name;
    two_run_call *read;
    three_run_output_call *write;
    one_run_call *check;
    three_run_output_call *report;
    one_run_call *iso_read;
    two_run_output_call *iso_write;
    two_run_output_call *iso_report;
    state_output_call *stream_read;
    state_change_call *stream_advance;
    state_call *stream_end;
    state_call *stream_place;
};

/* The library, and the decoder written by hand. */
extern const struct calls archive_calls;
extern const struct calls decoder_calls;

extern const char *const call_names[];

/* How many input runs a call has. */
size_t runs_of(enum call call);

/* On either bus. */
bool is_write(enum call call);
bool is_report(enum call call);

/* A call of the stream by a state, the part that it has, if any, and what is lent
 * to a reader for the runs of a frame; `out` holds that and a state. */
struct request stream_request(enum call call, const uint8_t *state, struct run part, uint8_t *out,
                              size_t room);

uint64_t answer_of(const struct calls *calls, const struct request *request);

/* The refusal in an answer; a call that answers with a number refuses nothing. */
unsigned refusal_of(enum call call, uint64_t answer);

#endif
