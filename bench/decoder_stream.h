/* decoder_stream.h: a reader of the adapter's stream with its state in a struct,
 * as a C program would keep it. */
#ifndef DECODER_STREAM_H
#define DECODER_STREAM_H

#include "rakhubole.h"

#include <stdbool.h>

/* The bytes of a record of this kind; an unknown kind is one byte. */
size_t stream_record_size(uint8_t kind);

/* Where the parts of a state of rakhubole.h stand behind the place, and how many
 * bytes of a record it can hold. */
enum {
    STATE_STOPPED = 8,
    STATE_COUNT = 9,
    STATE_HELD = 10,
    STATE_HELD_MOST = RAKHUBOLE_STREAM_STATE - STATE_HELD
};

/* A fresh one is all zeros. */
struct stream_reader {
    uint64_t place;
    bool stopped;
    size_t count;
    uint8_t record[RAKHUBOLE_STREAM_FRAME_RECORD]; /* the bytes of the record begun */
};

/* Tells and advances in one, as rakhubole_stream_next. */
uint64_t stream_reader_next(struct stream_reader *reader, const uint8_t *part, size_t part_length,
                            uint8_t *out, size_t out_length, size_t *taken);

#endif
