/* decoder_parts.h: what the files of the decoder share. */
#ifndef DECODER_PARTS_H
#define DECODER_PARTS_H

#include "format.h"
#include "rows.h"

#include <stdbool.h>
#include <stddef.h>
#include <stdint.h>

/* The parts of a frame or message. */
struct frame {
    const uint8_t *header;
    const uint8_t *data;
    size_t header_length;
    size_t data_length;
    size_t response_length;
    unsigned kind;
};

/* The refusal, or 0 and the parts; of a frame, and of a message of ISO 9141-2. */
unsigned read_frame(const uint8_t *first, size_t first_length, const uint8_t *response,
                    size_t response_length, struct frame *frame);
unsigned read_message(const uint8_t *run, size_t run_length, struct frame *message);

/* Sets header and data of a first run, whose last byte is its check byte. */
void split_run(const uint8_t *run, size_t length, size_t header_length, struct frame *frame);

/* What a reader answers. */
uint64_t read_answer(unsigned refusal, const struct frame *frame);

/* Copies a run, which may be empty, and answers the place behind it. */
uint8_t *copy_run(uint8_t *out, const uint8_t *run, size_t length);

static inline uint16_t number_16(const uint8_t *bytes)
{
    return (uint16_t)(bytes[0] << 8 | bytes[1]);
}

static inline uint32_t number_32(const uint8_t *bytes)
{
    return (uint32_t)number_16(bytes) << 16 | number_16(bytes + 2);
}

/* As two's complement of 32 bits. */
static inline int64_t as_signed(uint32_t number)
{
    return number & 0x80000000u ? (int64_t)number - 0x100000000 : (int64_t)number;
}

/* An accepted one. */
struct supplement {
    const uint8_t *records;
    size_t length;
};

/* In the SAE tables, or else in the supplement; false if in neither. */
bool find_prn(const struct supplement *supplement, uint16_t prn, struct prn_row *row);
bool find_slot(const struct supplement *supplement, const struct prn_row *prn,
               struct slot_row *slot);

/* How many of a frame's data are its selector: as many as the supplement says for
 * its header, or all if there are fewer. */
size_t selector_length(const struct supplement *supplement, const struct frame *frame);

/* The layout record for a frame whose selector is so long, or NULL. */
const uint8_t *find_layout(const struct supplement *supplement, const struct frame *frame,
                           size_t selector);

#endif
