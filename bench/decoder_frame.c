#include "decoder.h"
#include "decoder_parts.h"

#include "rakhubole.h"

#include <string.h>

#define UNASSIGNED 4

/* The response kind of each message type KYZZ, by document 000's table. */
static const uint8_t response_kinds[16] = {
    2, 1, 2, 3, 1, UNASSIGNED, UNASSIGNED, UNASSIGNED, 0, 0, 0, 0, 0, 0, 0, 0,
};

static uint8_t check_byte(const uint8_t *run, size_t length)
{
    uint8_t crc = 0xFF;
    for (size_t i = 0; i < length; i++) {
        crc ^= run[i];
        for (int bit = 0; bit < 8; bit++)
            crc = (uint8_t)(crc & 0x80 ? crc << 1 ^ 0x1D : crc << 1);
    }
    return (uint8_t)~crc;
}

static bool ends_in_check_byte(const uint8_t *run, size_t length)
{
    return run[length - 1] == check_byte(run, length - 1);
}

static size_t header_length_of(uint8_t first_byte)
{
    return first_byte & BIT_H ? 1 : 3;
}

/* The refusal of a response's count, or 0. `checks` is 1 where the count
 * includes the check byte of kind 3: a writer's does not, so that it never has
 * too few. */
static unsigned count_refusal(unsigned kind, size_t length, size_t checks)
{
    if (kind == 0)
        return length == 0 ? 0 : RAKHUBOLE_RESPONSE_FORBIDDEN;
    if (length == 0)
        return RAKHUBOLE_RESPONSE_MISSING;
    if (kind == 3 && length < 1 + checks)
        return RAKHUBOLE_RESPONSE_TOO_FEW;
    if (kind == 1 && length > 1)
        return RAKHUBOLE_RESPONSE_TOO_MANY;
    return 0;
}

void split_run(const uint8_t *run, size_t length, size_t header_length, struct frame *frame)
{
    frame->header = run;
    frame->header_length = header_length;
    frame->data = run + header_length;
    frame->data_length = length - header_length - 1;
}

unsigned read_frame(const uint8_t *first, size_t first_length, const uint8_t *response,
                    size_t response_length, struct frame *frame)
{
    if (first_length > FRAME_MOST || response_length > FRAME_MOST - first_length)
        return RAKHUBOLE_OVER_TWELVE_BYTES;
    if (first_length == 0 || first_length < header_length_of(first[0]) + 1)
        return RAKHUBOLE_FIRST_RUN_SHORT;
    if (!ends_in_check_byte(first, first_length))
        return RAKHUBOLE_CHECK_BYTE_WRONG;
    unsigned kind = response_kinds[first[0] & TYPE_BITS];
    if (kind == UNASSIGNED)
        return RAKHUBOLE_TYPE_UNASSIGNED;
    unsigned refusal = count_refusal(kind, response_length, 1);
    if (refusal)
        return refusal;
    if (kind == 3 && !ends_in_check_byte(response, response_length))
        return RAKHUBOLE_RESPONSE_CHECK_BYTE_WRONG;
    split_run(first, first_length, header_length_of(first[0]), frame);
    frame->kind = kind;
    frame->response_length = kind == 3 ? response_length - 1 : response_length;
    return 0;
}

uint64_t read_answer(unsigned refusal, const struct frame *frame)
{
    if (refusal)
        return refusal;
    return (uint64_t)frame->header_length << 8 | (uint64_t)frame->data_length << 16 |
           (uint64_t)frame->kind << 24 | (uint64_t)frame->response_length << 32;
}

uint64_t decoder_read(const uint8_t *first, size_t first_length, const uint8_t *response,
                      size_t response_length)
{
    struct frame frame;
    unsigned refusal = read_frame(first, first_length, response, response_length, &frame);
    return read_answer(refusal, &frame);
}

uint8_t *copy_run(uint8_t *out, const uint8_t *run, size_t length)
{
    if (length)
        memcpy(out, run, length);
    return out + length;
}

/* The length of header, data, response and check bytes together, or one more
 * than a frame has for anything over that. */
static size_t frame_length(size_t header, size_t data, size_t response, unsigned kind)
{
    size_t rest = FRAME_MOST - header - (kind == 3 ? 2 : 1);
    if (data > rest || response > rest - data)
        return FRAME_MOST + 1;
    return FRAME_MOST - rest + data + response;
}

uint64_t decoder_write(const uint8_t *header, size_t header_length, const uint8_t *data,
                       size_t data_length, const uint8_t *response, size_t response_length,
                       uint8_t *out, size_t out_length)
{
    if (header_length == 0 || header_length != header_length_of(header[0]))
        return RAKHUBOLE_HEADER_LENGTH_WRONG;
    unsigned kind = response_kinds[header[0] & TYPE_BITS];
    if (kind == UNASSIGNED)
        return RAKHUBOLE_TYPE_UNASSIGNED;
    unsigned refusal = count_refusal(kind, response_length, 0);
    if (refusal)
        return refusal;
    size_t length = frame_length(header_length, data_length, response_length, kind);
    if (length > FRAME_MOST)
        return RAKHUBOLE_OVER_TWELVE_BYTES;
    if (out_length < length)
        return RAKHUBOLE_OUT_TOO_SHORT;
    uint8_t *end = copy_run(copy_run(out, header, header_length), data, data_length);
    *end = check_byte(out, header_length + data_length);
    end = copy_run(end + 1, response, response_length);
    if (kind == 3)
        *end = check_byte(response, response_length);
    size_t first_length = header_length + data_length + 1;
    return (uint64_t)first_length << 8 | (uint64_t)(length - first_length) << 16;
}
