/* decoder.h: the calls of rakhubole.h, written by hand in plain C from
 * documents 01 and 02, for comparison with the library. */
#ifndef DECODER_H
#define DECODER_H

#include <stddef.h>
#include <stdint.h>

uint64_t decoder_read(const uint8_t *first, size_t first_length, const uint8_t *response,
                      size_t response_length);

uint64_t decoder_write(const uint8_t *header, size_t header_length, const uint8_t *data,
                       size_t data_length, const uint8_t *response, size_t response_length,
                       uint8_t *out, size_t out_length);

uint64_t decoder_check(const uint8_t *supplement, size_t supplement_length);

uint64_t decoder_report(const uint8_t *supplement, size_t supplement_length, const uint8_t *first,
                        size_t first_length, const uint8_t *response, size_t response_length,
                        uint8_t *out, size_t out_length);

uint64_t decoder_iso_read(const uint8_t *run, size_t run_length);

uint64_t decoder_iso_write(const uint8_t *header, size_t header_length, const uint8_t *data,
                           size_t data_length, uint8_t *out, size_t out_length);

uint64_t decoder_iso_report(const uint8_t *supplement, size_t supplement_length,
                            const uint8_t *run, size_t run_length, uint8_t *out,
                            size_t out_length);

uint64_t decoder_stream_read(const uint8_t *state, const uint8_t *part, size_t part_length,
                             uint8_t *out, size_t out_length);

uint64_t decoder_stream_advance(uint8_t *state, const uint8_t *part, size_t part_length);

uint64_t decoder_stream_end(const uint8_t *state);

uint64_t decoder_stream_place(const uint8_t *state);

#endif
