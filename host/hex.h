/* Bytes as hexadecimal text. */
#ifndef HEX_H
#define HEX_H

#include <stddef.h>
#include <stdint.h>
#include <stdio.h>

/* Far more than a frame, so that the library is the one to refuse. */
enum { BYTES_MOST = 2048 };

struct bytes {
    size_t count;
    uint8_t at[BYTES_MOST];
};

/* A frame as text: hexadecimal bytes, blanks between bytes where wanted, the
 * response behind a slash. */
struct runs {
    struct bytes first, response;
};

/* The value of a hexadecimal digit, or -1. */
int hex_digit(char c);

/* Appends the bytes of the text. NULL, or what is wrong with the text. */
const char *hex_append(struct bytes *bytes, const char *text, size_t length);

/* Reads a frame. NULL, or what is wrong with the text; both runs are then empty. */
const char *runs_read(struct runs *runs, const char *text, size_t length);

/* Writes bytes with blanks between them. */
void put_bytes(FILE *file, const uint8_t *bytes, size_t count);

/* Writes a frame as runs_read reads it. */
void put_runs(FILE *file, const uint8_t *first, size_t first_count, const uint8_t *response,
              size_t response_count);

#endif
