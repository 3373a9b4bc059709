#include "stream.h"

#include <errno.h>
#include <string.h>
#include <unistd.h>

void stream_start(struct stream *stream, FILE *file)
{
    *stream = (struct stream){.file = fileno(file)};
}

/* Whether the library may answer so for this many bytes; if not, to go on could
 * be to go on for ever. */
static bool is_answer(uint64_t answer, size_t taken, size_t length)
{
    unsigned refusal = RAKHUBOLE_REFUSAL(answer), has_frame = RAKHUBOLE_STREAM_HAS_FRAME(answer);
    if (refusal == 0 && has_frame == 0)
        return taken == length;
    if (taken == 0 || taken > length)
        return false;
    if (refusal != 0)
        return refusal == RAKHUBOLE_STREAM_KIND_UNKNOWN ||
               refusal == RAKHUBOLE_STREAM_RECORD_WRONG;
    return has_frame == 1 &&
           RAKHUBOLE_STREAM_FIRST(answer) + RAKHUBOLE_STREAM_SECOND(answer) <= FRAME_MOST;
}

static void take_run(struct bytes *bytes, const uint8_t *run, size_t length)
{
    memcpy(bytes->at, run, length);
    bytes->count = length;
}

/* A frame, and whether the bus can have it. */
static void take_frame(struct entry *entry, const uint8_t *runs, uint64_t answer)
{
    size_t first = RAKHUBOLE_STREAM_FIRST(answer);
    take_run(&entry->runs.first, runs, first);
    take_run(&entry->runs.response, runs + first, RAKHUBOLE_STREAM_SECOND(answer));
    entry->words = bus_response_fault(entry->bus, &entry->runs.response);
    entry->kind = entry->words ? ENTRY_FAULT : ENTRY_FRAME;
}

static void take_odd(struct stream *stream, struct entry *entry)
{
    stream->is_over = true;
    entry->kind = ENTRY_ODD;
    entry->place = stream->place;
}

/* Feeds what is left of the part. Whether that made an entry. */
static bool feed_part(struct stream *stream, struct entry *entry)
{
    uint8_t runs[FRAME_MOST];
    size_t length = stream->length - stream->taken, taken;
    uint64_t answer = rakhubole_stream_next(stream->state, stream->part + stream->taken, length,
                                            runs, sizeof runs, &taken);
    if (!is_answer(answer, taken, length)) {
        take_odd(stream, entry);
        return true;
    }
    stream->taken += taken;
    stream->place += taken;
    entry->refusal = RAKHUBOLE_REFUSAL(answer);
    stream->is_over = entry->refusal == RAKHUBOLE_STREAM_KIND_UNKNOWN;
    entry->place = rakhubole_stream_place(stream->state) -
                   (stream->is_over ? 1 : RAKHUBOLE_STREAM_FRAME_RECORD);
    if (entry->refusal != 0)
        entry->kind = ENTRY_REFUSED;
    else if (RAKHUBOLE_STREAM_HAS_FRAME(answer))
        take_frame(entry, runs, answer);
    else
        return false;
    return true;
}

/* The end of the stream, and whether it cuts a record. */
static void take_end(struct stream *stream, struct entry *entry)
{
    uint64_t answer = rakhubole_stream_end(stream->state);
    stream->is_over = true;
    if (answer == RAKHUBOLE_STREAM_CUT) {
        entry->kind = ENTRY_REFUSED;
        entry->refusal = RAKHUBOLE_STREAM_CUT;
        entry->place = rakhubole_stream_place(stream->state);
    } else if (answer != 0) {
        take_odd(stream, entry);
    }
}

/* Waits for bytes and takes those that have come; false if there are none, and
 * then the entry says why. */
static bool read_part(struct stream *stream, struct entry *entry)
{
    ssize_t count;
    do
        count = read(stream->file, stream->part, sizeof stream->part);
    while (count < 0 && errno == EINTR);
    stream->taken = 0;
    stream->length = count > 0 ? (size_t)count : 0;
    if (count == 0) {
        take_end(stream, entry);
    } else if (count < 0) {
        entry->kind = ENTRY_UNREADABLE;
        entry->words = strerror(errno);
    }
    return count > 0;
}

void stream_next(struct stream *stream, const struct bus *bus, struct entry *entry)
{
    *entry = (struct entry){.kind = ENTRY_NONE, .bus = bus, .unit = "byte"};
    while (!stream->is_over) {
        if (stream->taken == stream->length && !read_part(stream, entry))
            return;
        if (feed_part(stream, entry))
            return;
    }
}
