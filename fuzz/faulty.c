/* Stands in for the archive with a fault in its report or in its calls of the
 * stream, which the replay has to see: FAULT in the environment says which, 0 for
 * none. */
#include "calls.h"
#include "classes.h"
#include "decoder.h"
#include "decoder_stream.h"
#include "draft.h"
#include "format.h"
#include "rakhubole.h"

#include <stdlib.h>
#include <string.h>

enum fault {
    NO_FAULT,
    OTHER_ANSWER,
    OTHER_ROW,
    READ_BEHIND_RUN,
    READ_BEFORE_RUN,
    WRITTEN_BEHIND_OUTPUT,
    WRITTEN_BEFORE_OUTPUT,
    INPUT_CHANGED,
    REFUSED_BUT_WRITTEN,
    TOO_FEW_AS_MISSING,
    FRACTION_REDUCED,
    SIGN_LOST,
    SELECTOR_LENGTHS_IGNORED,
    SELECTOR_NOT_CUT,
    SECOND_BYTE_NOT_IN_KEY,
    /* of a report on ISO 9141-2 */
    FIRST_BYTE_BEFORE_SUM,
    WRITTEN_BEHIND_ROWS,
    /* of a stream */
    WRONG_BEFORE_WHOLE,
    TICK_A_BYTE_SHORT,
    READ_ON_AFTER_UNKNOWN,
    STATE_CHANGED_BY_READ,
    READ_BEHIND_STATE,
    WRITTEN_BEHIND_RUNS,
    TAKEN_A_BYTE_MORE,
    HELD_BYTE_LOST,
    CUT_THOUGH_STOPPED
};

static enum fault fault(void)
{
    const char *number = getenv("FAULT");
    return number ? (enum fault)atoi(number) : NO_FAULT;
}

/* Reads the byte at a place of a run that has bytes. Not watched by the
 * sanitizer, as the archive is not. */
__attribute__((no_sanitize("address", "undefined"))) static uint8_t
byte_of(const uint8_t *run, size_t length, ptrdiff_t place)
{
    return length ? *(const volatile uint8_t *)(run + place) : 0;
}

__attribute__((no_sanitize("address", "undefined"))) static void
set_byte_of(const uint8_t *run, size_t length, ptrdiff_t place)
{
    if (length)
        *(volatile uint8_t *)((uintptr_t)run + (uintptr_t)place) ^= 0xFF;
}

/* The largest number that divides both. */
static uint64_t common_divisor(uint64_t one, uint64_t other)
{
    return other ? common_divisor(other, one % other) : one;
}

static void put_number(uint8_t *bytes, uint8_t *end, uint64_t number)
{
    for (; end > bytes; number >>= 8)
        *--end = (uint8_t)number;
}

/* Gives every Number its fraction in lowest terms, or a whole number without
 * sign. */
static void spoil_fractions(enum fault fault, uint8_t *rows, size_t length)
{
    for (size_t at = 0; at < length; at += 1 + body_size(rows[at])) {
        if (rows[at] != RAKHUBOLE_ROW_NUMBER)
            continue;
        uint8_t *body = rows + at + 1, *divisor = body + RAKHUBOLE_NUMBER_DIVISOR;
        struct fraction fraction = fraction_of(body);
        uint64_t common = 1;
        if (fault == FRACTION_REDUCED)
            common = common_divisor(fraction.size, fraction.divisor);
        else
            fraction.is_negative = false;
        uint64_t size = fraction.size / common;
        put_number(body + RAKHUBOLE_NUMBER_ABOVE, divisor, fraction.is_negative ? 0 - size : size);
        put_number(divisor, body + RAKHUBOLE_NUMBER_BODY, fraction.divisor / common);
    }
}

/* Every header has a selector of one byte; or layouts that differ in the second byte
 * alone are one, that of the frame. */
static void spoil_records(enum fault fault, struct draft *records, uint8_t second_byte)
{
    for (size_t place = 0, length; place < records->length; place += length) {
        uint8_t *record = records->bytes + place;
        length = record_length(record, records->length - place);
        if (fault == SELECTOR_LENGTHS_IGNORED && record[0] == RECORD_SELECTOR)
            record[SELECTOR_LENGTH] = SELECTOR_UNSAID;
        if (fault == SECOND_BYTE_NOT_IN_KEY && record[0] == RECORD_LAYOUT &&
            record[LAYOUT_SELECTOR_LENGTH] == SELECTOR_MOST)
            record[LAYOUT_SELECTOR + 1] = second_byte;
    }
}

/* The supplement as a decoder with such a fault takes it. With a selector as long as
 * it is asked for, though the data are shorter, none of its layouts is found. */
static struct run spoiled_supplement(const struct request *request)
{
    static struct draft mine;
    const struct run *first = &request->in[1], *response = &request->in[2];
    struct run records = request->in[0];
    uint64_t read = decoder_read(first->bytes, first->length, response->bytes, response->length);
    if (decoder_check(records.bytes, records.length) != 0 || RAKHUBOLE_REFUSAL(read) != 0)
        return records;
    struct selector selector = selector_of(request);
    if (fault() == SELECTOR_NOT_CUT)
        return selector.length < selector.asked ? (struct run){NULL, 0} : records;
    for (mine.length = 0; mine.length < records.length; mine.length++)
        mine.bytes[mine.length] = records.bytes[mine.length];
    bool has_second = selector.length == SELECTOR_MOST;
    spoil_records(fault(), &mine, has_second ? first->bytes[RAKHUBOLE_READ_HEADER(read) + 1] : 0);
    return (struct run){mine.bytes, mine.length};
}

static uint64_t faulty_report(const uint8_t *supplement, size_t supplement_length,
                              const uint8_t *first, size_t first_length, const uint8_t *response,
                              size_t response_length, uint8_t *out, size_t out_length)
{
    struct run records = {supplement, supplement_length};
    const struct request request = {
        CALL_REPORT, {records, {first, first_length}, {response, response_length}}, out, out_length,
    };
    if (fault() >= SELECTOR_LENGTHS_IGNORED && fault() <= SECOND_BYTE_NOT_IN_KEY)
        records = spoiled_supplement(&request);
    uint64_t answer = decoder_report(records.bytes, records.length, first, first_length, response,
                                     response_length, out, out_length);
    int accepted = RAKHUBOLE_REFUSAL(answer) == 0;
    switch (fault()) {
    case OTHER_ANSWER: return answer + accepted;
    case OTHER_ROW: set_byte_of(out, accepted, 0); break;
    case READ_BEHIND_RUN: byte_of(first, first_length, (ptrdiff_t)first_length); break;
    case READ_BEFORE_RUN: byte_of(first, first_length, -1); break;
    case WRITTEN_BEHIND_OUTPUT: set_byte_of(out, out_length, (ptrdiff_t)out_length); break;
    case WRITTEN_BEFORE_OUTPUT: set_byte_of(out, out_length, -1); break;
    case INPUT_CHANGED: set_byte_of(supplement, supplement_length, 0); break;
    case REFUSED_BUT_WRITTEN: set_byte_of(out, !accepted && out_length, 0); break;
    case TOO_FEW_AS_MISSING:
        return answer == RAKHUBOLE_RESPONSE_TOO_FEW ? RAKHUBOLE_RESPONSE_MISSING : answer;
    case FRACTION_REDUCED:
    case SIGN_LOST:
        spoil_fractions(fault(), out, accepted ? RAKHUBOLE_ROWS_LENGTH(answer) : 0);
        break;
    default: break;
    }
    return answer;
}

static uint64_t faulty_iso_report(const uint8_t *supplement, size_t supplement_length,
                                  const uint8_t *run, size_t run_length, uint8_t *out,
                                  size_t out_length)
{
    uint64_t answer = decoder_iso_report(supplement, supplement_length, run, run_length, out,
                                         out_length);
    size_t rows = RAKHUBOLE_ROWS_LENGTH(answer);
    bool has_room = RAKHUBOLE_REFUSAL(answer) == 0 && rows < out_length;
    switch (fault()) {
    case FIRST_BYTE_BEFORE_SUM:
        if (answer == RAKHUBOLE_CHECK_BYTE_WRONG && run[0] != fitting_first_byte(run[0]))
            return RAKHUBOLE_FIRST_BYTE_WRONG;
        break;
    case WRITTEN_BEHIND_ROWS: set_byte_of(out, has_room, (ptrdiff_t)rows); break;
    default: break;
    }
    return answer;
}

/* A frame's record is begun of which the lengths alone say that it is wrong. */
static bool begins_wrong(const uint8_t *state, const uint8_t *part, size_t part_length)
{
    uint8_t after[RAKHUBOLE_STREAM_STATE];
    memcpy(after, state, sizeof after);
    decoder_stream_advance(after, part, part_length);
    const uint8_t *held = after + STATE_HELD;
    return after[STATE_COUNT] >= STREAM_RUNS && held[0] == STREAM_FRAME &&
           held[STREAM_FIRST_LENGTH] + held[STREAM_SECOND_LENGTH] > FRAME_MOST;
}

/* Reads over a tick at the start of a part as if it had a byte less, or in a state
 * that has stopped, where the fault says so. */
static uint64_t spoiled_stream_read(const uint8_t *state, const uint8_t *part, size_t part_length,
                                    uint8_t *out, size_t out_length)
{
    uint8_t mine[RAKHUBOLE_STREAM_STATE];
    size_t tick = RAKHUBOLE_STREAM_TICK_RECORD - 1;
    memcpy(mine, state, sizeof mine);
    if (fault() == READ_ON_AFTER_UNKNOWN)
        mine[STATE_STOPPED] = 0;
    if (fault() == TICK_A_BYTE_SHORT && state[STATE_COUNT] == 0 && part_length > tick &&
        part[0] == STREAM_TICK)
        return decoder_stream_read(mine, part + tick, part_length - tick, out, out_length);
    return decoder_stream_read(mine, part, part_length, out, out_length);
}

static uint64_t faulty_stream_read(const uint8_t *state, const uint8_t *part, size_t part_length,
                                   uint8_t *out, size_t out_length)
{
    uint64_t answer = spoiled_stream_read(state, part, part_length, out, out_length);
    size_t runs = RAKHUBOLE_STREAM_FIRST(answer) + RAKHUBOLE_STREAM_SECOND(answer);
    bool has_room = RAKHUBOLE_STREAM_HAS_FRAME(answer) && runs < out_length;
    switch (fault()) {
    case WRONG_BEFORE_WHOLE:
        if (answer == 0 && begins_wrong(state, part, part_length))
            return RAKHUBOLE_STREAM_RECORD_WRONG;
        break;
    case STATE_CHANGED_BY_READ: set_byte_of(state, RAKHUBOLE_STREAM_STATE, 0); break;
    case READ_BEHIND_STATE:
        byte_of(state, RAKHUBOLE_STREAM_STATE, RAKHUBOLE_STREAM_STATE);
        break;
    case WRITTEN_BEHIND_RUNS: set_byte_of(out, has_room, (ptrdiff_t)runs); break;
    default: break;
    }
    return answer;
}

static uint64_t faulty_stream_advance(uint8_t *state, const uint8_t *part, size_t part_length)
{
    uint64_t taken = decoder_stream_advance(state, part, part_length);
    switch (fault()) {
    case TAKEN_A_BYTE_MORE: return taken + (taken > 0 && taken < part_length);
    case HELD_BYTE_LOST:
        if (state[STATE_COUNT] > 0)
            state[STATE_HELD + --state[STATE_COUNT]] = 0;
        break;
    default: break;
    }
    return taken;
}

static uint64_t faulty_stream_end(const uint8_t *state)
{
    uint8_t mine[RAKHUBOLE_STREAM_STATE];
    memcpy(mine, state, sizeof mine);
    if (fault() == CUT_THOUGH_STOPPED)
        mine[STATE_STOPPED] = 0;
    return decoder_stream_end(mine);
}

const struct calls archive_calls = {
    "faulty", decoder_read, decoder_write, decoder_check, faulty_report,
    decoder_iso_read, decoder_iso_write, faulty_iso_report,
    faulty_stream_read, faulty_stream_advance, faulty_stream_end, decoder_stream_place,
};
