/* streams.h: a stream of frames and ticks, fed part by part. */
#ifndef STREAMS_H
#define STREAMS_H

#include "calls.h"

#define STREAM_FRAMES 1024
#define STREAM_TICKS 1024

/* The stream; it stands in memory that is filled at the first call. */
struct run bench_stream(void);

/* Feeds it whole, so many bytes at a time, to the reader of the archive or to that
 * in C, each telling and advancing in one; stops the program if a frame is not
 * told. Parts are of a power of two of bytes that divides the stream. */
void feed_stream(const struct calls *calls, size_t part_length);

#endif
