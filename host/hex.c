#include "hex.h"

#include "text.h"

#include <string.h>

int hex_digit(char c)
{
    if (c >= '0' && c <= '9')
        return c - '0';
    if (c >= 'A' && c <= 'F')
        return c - 'A' + 10;
    if (c >= 'a' && c <= 'f')
        return c - 'a' + 10;
    return -1;
}

const char *hex_append(struct bytes *bytes, const char *text, size_t length)
{
    for (size_t i = 0; i < length; i++) {
        if (is_blank(text[i]))
            continue;
        int high = hex_digit(text[i]);
        if (high < 0)
            return "not hexadecimal digits";
        int low = i + 1 < length ? hex_digit(text[i + 1]) : -1;
        if (low < 0)
            return "a byte is not two hexadecimal digits";
        if (bytes->count == BYTES_MOST)
            return "more than 2,048 bytes";
        bytes->at[bytes->count++] = (uint8_t)(high << 4 | low);
        i++;
    }
    return NULL;
}

const char *runs_read(struct runs *runs, const char *text, size_t length)
{
    const char *slash = memchr(text, '/', length);
    size_t before = slash ? (size_t)(slash - text) : length;
    size_t behind = slash ? length - before - 1 : 0;
    runs->first.count = runs->response.count = 0;
    const char *fault = hex_append(&runs->first, text, before);
    if (!fault && slash && memchr(slash + 1, '/', behind))
        fault = "more than one slash";
    if (!fault && slash)
        fault = hex_append(&runs->response, slash + 1, behind);
    if (fault)
        runs->first.count = runs->response.count = 0;
    return fault;
}

void put_bytes(FILE *file, const uint8_t *bytes, size_t count)
{
    for (size_t i = 0; i < count; i++)
        fprintf(file, i ? " %02X" : "%02X", bytes[i]);
}

void put_runs(FILE *file, const uint8_t *first, size_t first_count, const uint8_t *response,
              size_t response_count)
{
    put_bytes(file, first, first_count);
    if (response_count == 0)
        return;
    fputs(first_count ? " / " : "/ ", file);
    put_bytes(file, response, response_count);
}
