#include "draft.h"

#include "decoder_stream.h"
#include "format.h"
#include "judge.h"
#include "rakhubole.h"

#include <string.h>

/* Bytes that may be lent behind the longest report. */
#define SPARE_ROOM 16

uint8_t take_byte(struct feed *feed)
{
    if (feed->left == 0)
        return 0;
    feed->left--;
    return *feed->bytes++;
}

uint16_t take_16(struct feed *feed)
{
    uint8_t high = take_byte(feed);
    return (uint16_t)(high << 8 | take_byte(feed));
}

uint32_t take_32(struct feed *feed)
{
    uint16_t high = take_16(feed);
    return (uint32_t)high << 16 | take_16(feed);
}

size_t take_length(struct feed *feed)
{
    uint8_t byte = take_byte(feed);
    return byte < 0xF0 ? byte % 16 : (size_t)(byte - 0xEF) * 64;
}

size_t take_room(struct feed *feed)
{
    return take_16(feed) % (RAKHUBOLE_ROWS_MOST + SPARE_ROOM + 1);
}

void put(struct draft *draft, uint32_t number, size_t bytes)
{
    for (size_t i = bytes; i > 0 && draft->length < sizeof draft->bytes; i--)
        draft->bytes[draft->length++] = (uint8_t)(number >> 8 * (i - 1));
}

void put_run(struct draft *draft, struct feed *feed, size_t length)
{
    for (size_t i = 0; i < length; i++)
        put(draft, take_byte(feed), 1);
}

static void seal(struct draft *draft, check_byte_of *check_byte)
{
    if (draft->length == 0)
        return;
    size_t last = draft->length - 1;
    draft->bytes[last] = check_byte(draft->bytes, last);
}

void draft_frame(struct feed *feed, struct draft *first, struct draft *response)
{
    put_run(first, feed, take_length(feed));
    put_run(response, feed, take_length(feed));
}

void seal_frame(uint8_t flags, struct draft *first, struct draft *response)
{
    if (flags & SEALED)
        seal(first, judge_check_byte);
    if (flags & RESPONSE_SEALED)
        seal(response, judge_check_byte);
}

uint8_t fitting_first_byte(uint8_t first_byte)
{
    return (uint8_t)((first_byte & ~BIT_H) | BIT_K);
}

void fit_first_byte(uint8_t flags, struct draft *header)
{
    if (flags & FITTED && header->length > 0)
        header->bytes[0] = fitting_first_byte(header->bytes[0]);
}

void seal_message(uint8_t flags, struct draft *message)
{
    fit_first_byte(flags, message);
    if (flags & SEALED)
        seal(message, judge_sum);
}

/* Gives a frame's record lengths that fit and zeros behind both runs. */
static void mend_frame(uint8_t *record)
{
    uint8_t *first = &record[STREAM_FIRST_LENGTH], *second = &record[STREAM_SECOND_LENGTH];
    *first %= FRAME_MOST + 1;
    *second %= FRAME_MOST + 1 - *first;
    size_t used = (size_t)*first + *second;
    memset(record + STREAM_RUNS + used, 0, FRAME_MOST - used);
}

void mend_stream(struct draft *stream)
{
    for (size_t at = 0, size; at < stream->length; at += size) {
        uint8_t *record = stream->bytes + at, kind = record[0];
        if (kind < 0xF8)
            record[0] = kind % 2 ? STREAM_FRAME : STREAM_TICK;
        size = stream_record_size(record[0]);
        if (kind < 0x80 && record[0] == STREAM_FRAME && size <= stream->length - at)
            mend_frame(record);
    }
}
