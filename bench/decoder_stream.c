/* The adapter's stream: a reader that keeps its state in a struct and steps once
 * for a call, and the calls of rakhubole.h over it. */
#include "decoder.h"
#include "decoder_stream.h"

#include "format.h"
#include "rakhubole.h"

#include <string.h>

size_t stream_record_size(uint8_t kind)
{
    return kind == STREAM_FRAME  ? RAKHUBOLE_STREAM_FRAME_RECORD
           : kind == STREAM_TICK ? RAKHUBOLE_STREAM_TICK_RECORD
                                 : 1;
}

/* The bytes of both runs of a frame's record. */
static size_t runs_length(const uint8_t *record)
{
    return (size_t)record[STREAM_FIRST_LENGTH] + record[STREAM_SECOND_LENGTH];
}

/* The lengths fit, and the bytes behind both runs are zero. */
static bool record_fits(const uint8_t *record)
{
    size_t length = runs_length(record);
    if (length > FRAME_MOST)
        return false;
    for (size_t i = STREAM_RUNS + length; i < RAKHUBOLE_STREAM_FRAME_RECORD; i++)
        if (record[i] != 0)
            return false;
    return true;
}

/* What a whole record tells; the runs of a frame go to `out`. */
static uint64_t record_answer(const uint8_t *record, uint8_t *out, size_t out_length)
{
    if (record[0] != STREAM_FRAME)
        return RAKHUBOLE_STREAM_KIND_UNKNOWN;
    if (!record_fits(record))
        return RAKHUBOLE_STREAM_RECORD_WRONG;
    size_t length = runs_length(record);
    if (out_length < length)
        return RAKHUBOLE_OUT_TOO_SHORT;
    if (length > 0)
        memcpy(out, record + STREAM_RUNS, length);
    return 1u << 8 | (uint64_t)record[STREAM_FIRST_LENGTH] << 16 |
           (uint64_t)record[STREAM_SECOND_LENGTH] << 24;
}

/* The record begun is over. */
static void pass_record(struct stream_reader *reader)
{
    reader->place += reader->count;
    reader->count = 0;
}

uint64_t stream_reader_next(struct stream_reader *reader, const uint8_t *part, size_t part_length,
                            uint8_t *out, size_t out_length, size_t *taken)
{
    *taken = 0;
    if (reader->stopped)
        return 0;
    struct stream_reader before = *reader;
    for (size_t i = 0; i < part_length; i++) {
        reader->record[reader->count++] = part[i];
        if (reader->count < stream_record_size(reader->record[0]))
            continue;
        if (reader->record[0] == STREAM_TICK) {
            pass_record(reader);
            continue;
        }
        uint64_t answer = record_answer(reader->record, out, out_length);
        if (answer == RAKHUBOLE_OUT_TOO_SHORT) {
            *reader = before;
            return answer;
        }
        reader->stopped = answer == RAKHUBOLE_STREAM_KIND_UNKNOWN;
        pass_record(reader);
        *taken = i + 1;
        return answer;
    }
    *taken = part_length;
    return 0;
}

/* ---- The calls over 24 bytes ---- */

static struct stream_reader reader_of(const uint8_t *state)
{
    struct stream_reader reader = {.stopped = state[STATE_STOPPED] != 0};
    for (size_t i = 0; i < STATE_STOPPED; i++)
        reader.place = reader.place << 8 | state[i];
    size_t count = state[STATE_COUNT] < STATE_HELD_MOST ? state[STATE_COUNT] : STATE_HELD_MOST;
    if (count < stream_record_size(state[STATE_HELD])) {
        reader.count = count;
        memcpy(reader.record, state + STATE_HELD, count);
    }
    return reader;
}

static void write_state(const struct stream_reader *reader, uint8_t *state)
{
    memset(state, 0, RAKHUBOLE_STREAM_STATE);
    for (size_t i = 0; i < STATE_STOPPED; i++)
        state[i] = (uint8_t)(reader->place >> (8 * (STATE_STOPPED - 1 - i)));
    state[STATE_STOPPED] = reader->stopped;
    state[STATE_COUNT] = (uint8_t)reader->count;
    memcpy(state + STATE_HELD, reader->record, reader->count);
}

uint64_t decoder_stream_read(const uint8_t *state, const uint8_t *part, size_t part_length,
                             uint8_t *out, size_t out_length)
{
    struct stream_reader reader = reader_of(state);
    size_t taken;
    return stream_reader_next(&reader, part, part_length, out, out_length, &taken);
}

uint64_t decoder_stream_advance(uint8_t *state, const uint8_t *part, size_t part_length)
{
    struct stream_reader reader = reader_of(state);
    uint8_t runs[FRAME_MOST];
    size_t taken;
    stream_reader_next(&reader, part, part_length, runs, sizeof runs, &taken);
    write_state(&reader, state);
    return taken;
}

uint64_t decoder_stream_end(const uint8_t *state)
{
    struct stream_reader reader = reader_of(state);
    return reader.count > 0 && !reader.stopped ? RAKHUBOLE_STREAM_CUT : 0;
}

uint64_t decoder_stream_place(const uint8_t *state)
{
    return reader_of(state).place;
}
