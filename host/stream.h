/* The stream of a cable adapter, record by record, as it comes. */
#ifndef STREAM_H
#define STREAM_H

#include "entry.h"

#include <stdio.h>

enum { STREAM_PART = 4096 };

struct stream {
    int file;
    uint8_t state[RAKHUBOLE_STREAM_STATE]; /* the library's */
    unsigned long long place;              /* bytes taken */
    bool is_over;
    size_t length, taken; /* of the part that was read last */
    uint8_t part[STREAM_PART];
};

/* Starts at the place where the file stands; nothing may have been read of it
 * through FILE. */
void stream_start(struct stream *stream, FILE *file);

/* Reads up to the next frame or refusal, and no byte beyond what has come; a
 * tick is no entry. */
void stream_next(struct stream *stream, const struct bus *bus, struct entry *entry);

#endif
