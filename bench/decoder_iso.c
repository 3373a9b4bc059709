/* Messages of ISO 9141-2; what stands above the frame is in decoder_report.c. */
#include "decoder.h"
#include "decoder_parts.h"

#include "rakhubole.h"

static uint8_t sum_of(const uint8_t *run, size_t length)
{
    uint8_t sum = 0;
    for (size_t i = 0; i < length; i++)
        sum = (uint8_t)(sum + run[i]);
    return sum;
}

/* H = 0 and K = 1. */
static bool first_byte_fits(uint8_t first_byte)
{
    return (first_byte & (BIT_H | BIT_K)) == BIT_K;
}

unsigned read_message(const uint8_t *run, size_t run_length, struct frame *message)
{
    if (run_length > FRAME_MOST)
        return RAKHUBOLE_OVER_TWELVE_BYTES;
    if (run_length < MESSAGE_LEAST)
        return RAKHUBOLE_FIRST_RUN_SHORT;
    if (run[run_length - 1] != sum_of(run, run_length - 1))
        return RAKHUBOLE_CHECK_BYTE_WRONG;
    if (!first_byte_fits(run[0]))
        return RAKHUBOLE_FIRST_BYTE_WRONG;
    split_run(run, run_length, MESSAGE_HEADER, message);
    message->kind = 0;
    message->response_length = 0;
    return 0;
}

uint64_t decoder_iso_read(const uint8_t *run, size_t run_length)
{
    struct frame message;
    unsigned refusal = read_message(run, run_length, &message);
    return read_answer(refusal, &message);
}

uint64_t decoder_iso_write(const uint8_t *header, size_t header_length, const uint8_t *data,
                           size_t data_length, uint8_t *out, size_t out_length)
{
    if (header_length != MESSAGE_HEADER)
        return RAKHUBOLE_HEADER_LENGTH_WRONG;
    if (!first_byte_fits(header[0]))
        return RAKHUBOLE_FIRST_BYTE_WRONG;
    if (data_length > FRAME_MOST - MESSAGE_LEAST)
        return RAKHUBOLE_OVER_TWELVE_BYTES;
    size_t length = MESSAGE_LEAST + data_length;
    if (out_length < length)
        return RAKHUBOLE_OUT_TOO_SHORT;
    uint8_t *end = copy_run(copy_run(out, header, header_length), data, data_length);
    *end = sum_of(out, length - 1);
    return (uint64_t)length << 8;
}
