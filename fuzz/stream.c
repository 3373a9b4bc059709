/* The stream's input: flags, a state if they say so, cuts behind their number, and
 * the stream. It is read from that state part by part and in a single part, with all
 * calls of the stream at each step. */
#include "classes.h"
#include "decoder_stream.h"
#include "draft.h"
#include "format.h"
#include "judged.h"
#include "rakhubole.h"
#include "target.h"

#include <stdio.h>
#include <stdlib.h>
#include <string.h>

/* The state is any 24 bytes; it has not stopped. Others are of draft.h. */
#define ANY_STATE 1
#define NOT_STOPPED 2

#define MOST_CUTS 16
#define MOST_ROOM 15

/* What a call is lent: so many bytes of the stream at most, and so many for the
 * runs of a frame. */
struct cut {
    size_t length;
    size_t room;
};

/* The cuts come in turns. Without any, each call is lent all that is left. */
struct cuts {
    struct cut each[MOST_CUTS];
    size_t count;
};

static void draft_state(struct feed *feed, uint8_t flags, uint8_t *state)
{
    for (size_t i = 0; i < RAKHUBOLE_STREAM_STATE; i++)
        state[i] = flags & ANY_STATE ? take_byte(feed) : 0;
    if (flags & NOT_STOPPED)
        state[STATE_STOPPED] = 0;
}

static void draft_cuts(struct feed *feed, struct cuts *cuts)
{
    cuts->count = take_byte(feed) % (MOST_CUTS + 1);
    for (size_t i = 0; i < cuts->count; i++) {
        cuts->each[i].length = take_length(feed);
        cuts->each[i].room = take_byte(feed) % (MOST_ROOM + 1);
    }
}

/* The cut of a call where so many bytes are left. A part may be empty at its first
 * turn; later it has a byte, so that the stream comes to its end. */
static struct cut cut_of(const struct cuts *cuts, size_t call, size_t left)
{
    if (cuts->count == 0)
        return (struct cut){left, FRAME_MOST};
    struct cut cut = cuts->each[call % cuts->count];
    if (cut.length == 0 && call >= cuts->count)
        cut.length = 1;
    if (cut.length > left)
        cut.length = left;
    return cut;
}

/* A call that has a state and no part. */
static uint64_t state_answer(enum call call, const uint8_t *state)
{
    struct request request = stream_request(call, state, (struct run){NULL, 0}, NULL, 0);
    return judged_answer(&request);
}

static void put_place(struct draft *told, const uint8_t *state)
{
    uint64_t place = state_answer(CALL_STREAM_PLACE, state);
    put(told, (uint32_t)(place >> 32), 4);
    put(told, (uint32_t)place, 4);
}

/* What comes first in the part. Where the room is too short for a frame, the same
 * is asked again with enough. */
static uint64_t read_answer(const uint8_t *state, struct run part, size_t room, uint8_t *out)
{
    struct request request = stream_request(CALL_STREAM_READ, state, part, out, room);
    uint64_t answer = judged_answer(&request);
    if (answer != RAKHUBOLE_OUT_TOO_SHORT)
        return answer;
    request.out_length = FRAME_MOST;
    return judged_answer(&request);
}

/* Makes a step and answers the bytes taken. A frame or refusal goes to `told`, with
 * the place behind its record. */
static size_t step(uint8_t *state, struct run part, size_t room, struct draft *told)
{
    uint8_t out[MOST_ROOM], after[RAKHUBOLE_STREAM_STATE];
    uint64_t answer = read_answer(state, part, room, out);
    struct request advance = stream_request(CALL_STREAM_ADVANCE, state, part, after, 0);
    size_t taken = (size_t)judged_answer(&advance);
    memcpy(state, after, sizeof after);
    state_answer(CALL_STREAM_END, state);
    if (answer == 0)
        return taken;
    size_t length = RAKHUBOLE_STREAM_FIRST(answer) + RAKHUBOLE_STREAM_SECOND(answer);
    put(told, (uint32_t)answer, 4);
    for (size_t i = 0; i < length; i++)
        put(told, out[i], 1);
    put_place(told, state);
    return taken;
}

/* Reads the stream to its end, or until a call takes nothing of a part. */
static void read_stream(const uint8_t *start, struct run stream, const struct cuts *cuts,
                        struct draft *told)
{
    uint8_t state[RAKHUBOLE_STREAM_STATE];
    size_t at = 0;
    bool goes_on = true;
    memcpy(state, start, sizeof state);
    state_answer(CALL_STREAM_END, state);
    state_answer(CALL_STREAM_PLACE, state);
    for (size_t call = 0; goes_on; call++) {
        struct cut cut = cut_of(cuts, call, stream.length - at);
        size_t taken = step(state, (struct run){stream.bytes + at, cut.length}, cut.room, told);
        at += taken;
        goes_on = at < stream.length && (taken > 0 || cut.length == 0);
    }
    put(told, (uint32_t)state_answer(CALL_STREAM_END, state), 4);
    put_place(told, state);
}

/* However a stream is cut, the same is told in the same order. */
static void require_alike(struct run stream, const struct draft *cut, const struct draft *whole)
{
    if (cut->length == whole->length && memcmp(cut->bytes, whole->bytes, cut->length) == 0)
        return;
    printf("a stream of %zu bytes tells otherwise when it is cut:", stream.length);
    for (size_t i = 0; i < stream.length; i++)
        printf(" %02X", stream.bytes[i]);
    printf("\n");
    fflush(stdout);
    abort();
}

int LLVMFuzzerTestOneInput(const uint8_t *bytes, size_t size)
{
    static struct draft stream, cut, whole;
    static const struct cuts none;
    struct feed feed = {bytes, size};
    uint8_t state[RAKHUBOLE_STREAM_STATE], flags = take_byte(&feed);
    struct cuts cuts;
    draft_state(&feed, flags, state);
    draft_cuts(&feed, &cuts);
    stream.length = cut.length = whole.length = 0;
    put_run(&stream, &feed, feed.left);
    if (flags & MENDED)
        mend_stream(&stream);
    struct run run = {stream.bytes, stream.length};
    read_stream(state, run, &cuts, &cut);
    read_stream(state, run, &none, &whole);
    require_alike(run, &cut, &whole);
    return 0;
}

bool show_target(void)
{
    bool all = true;
    for (int call = CALL_STREAM_READ; call <= CALL_STREAM_PLACE; call++)
        all = show_classes((enum call)call) && all;
    return all;
}
