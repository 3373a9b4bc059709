#include "streams.h"

#include "decoder_stream.h"
#include "format.h"
#include "rakhubole.h"

#include <stdio.h>
#include <stdlib.h>

#define STREAM_LENGTH                                                                            \
    (STREAM_FRAMES * RAKHUBOLE_STREAM_FRAME_RECORD + STREAM_TICKS * RAKHUBOLE_STREAM_TICK_RECORD)

/* A run of any length that a message can have and, where it leaves room, a response
 * of one byte in each third frame. */
static uint8_t *put_frame(uint8_t *at, size_t number)
{
    size_t first = MESSAGE_LEAST + number % (FRAME_MOST - MESSAGE_LEAST + 1);
    size_t second = number % 3 == 0 && first < FRAME_MOST;
    *at++ = STREAM_FRAME;
    *at++ = (uint8_t)first;
    *at++ = (uint8_t)second;
    for (size_t i = 0; i < FRAME_MOST; i++)
        *at++ = i < first + second ? (uint8_t)(number + i) : 0;
    return at;
}

static uint8_t *put_tick(uint8_t *at, size_t number)
{
    *at++ = STREAM_TICK;
    for (size_t i = 1; i < RAKHUBOLE_STREAM_TICK_RECORD; i++)
        *at++ = (uint8_t)(number >> i);
    return at;
}

struct run bench_stream(void)
{
    static uint8_t bytes[STREAM_LENGTH];
    /* How many ticks come behind a frame, in turns: one on average. */
    static const size_t ticks[] = {0, 1, 2, 1};
    if (bytes[0] == 0) {
        uint8_t *at = bytes;
        for (size_t i = 0; i < STREAM_FRAMES; i++) {
            at = put_frame(at, i);
            for (size_t tick = 0; tick < ticks[i % 4]; tick++)
                at = put_tick(at, i);
        }
    }
    return (struct run){bytes, sizeof bytes};
}

/* What is left of the part in which that place of the stream lies. */
static size_t part_left(size_t place, size_t part_length)
{
    return part_length - (place & (part_length - 1));
}

/* How many frames each reader tells of. A call that takes nothing ends the loop. */
static size_t archive_frames(struct run stream, size_t part_length)
{
    uint8_t state[RAKHUBOLE_STREAM_STATE] = {0}, runs[FRAME_MOST];
    size_t frames = 0, taken = 1;
    for (size_t at = 0; at < stream.length && taken > 0; at += taken)
        frames += RAKHUBOLE_STREAM_HAS_FRAME(
            rakhubole_stream_next(state, stream.bytes + at, part_left(at, part_length), runs,
                                  sizeof runs, &taken));
    return frames;
}

static size_t decoder_frames(struct run stream, size_t part_length)
{
    struct stream_reader reader = {0};
    uint8_t runs[FRAME_MOST];
    size_t frames = 0, taken = 1;
    for (size_t at = 0; at < stream.length && taken > 0; at += taken)
        frames += RAKHUBOLE_STREAM_HAS_FRAME(
            stream_reader_next(&reader, stream.bytes + at, part_left(at, part_length), runs,
                               sizeof runs, &taken));
    return frames;
}

void feed_stream(const struct calls *calls, size_t part_length)
{
    size_t frames = calls == &archive_calls ? archive_frames(bench_stream(), part_length)
                                            : decoder_frames(bench_stream(), part_length);
    if (frames == STREAM_FRAMES)
        return;
    printf("%s tells %zu frames of %d, fed %zu bytes at a time\n", calls->name, frames,
           STREAM_FRAMES, part_length);
    exit(1);
}
