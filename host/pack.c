/* rakhubole pack: a log as the stream that a cable adapter would send. */
#include "commands.h"
#include "files.h"
#include "log.h"
#include "message.h"
#include "output.h"
#include "write_file.h"

#include <inttypes.h>
#include <stdlib.h>
#include <string.h>

struct pack {
    uint8_t *bytes;
    size_t length, room;
};

/* Makes room for one more record. */
static bool make_room(struct pack *pack)
{
    enum { ROOM_AT_FIRST = 4096 };
    if (pack->room - pack->length >= RAKHUBOLE_STREAM_FRAME_RECORD)
        return true;
    size_t room = pack->room ? 2 * pack->room : ROOM_AT_FIRST;
    uint8_t *bytes = realloc(pack->bytes, room);
    if (!bytes)
        return false;
    pack->bytes = bytes;
    pack->room = room;
    return true;
}

/* The frame as a record. */
static void put_record(struct pack *pack, const struct runs *runs)
{
    const struct bytes *first = &runs->first, *second = &runs->response;
    uint8_t *record = pack->bytes + pack->length;
    memset(record, 0, RAKHUBOLE_STREAM_FRAME_RECORD);
    record[0] = STREAM_FRAME;
    record[STREAM_FIRST_LENGTH] = (uint8_t)first->count;
    record[STREAM_SECOND_LENGTH] = (uint8_t)second->count;
    memcpy(record + STREAM_RUNS, first->at, first->count);
    memcpy(record + STREAM_RUNS + first->count, second->at, second->count);
    pack->length += RAKHUBOLE_STREAM_FRAME_RECORD;
}

static int add_frame(struct pack *pack, const struct entry *entry, const char *path)
{
    if (entry->runs.first.count + entry->runs.response.count > FRAME_MOST) {
        complain("%s %s %" PRIu64 ": more than %d bytes in all, which no record of a stream holds",
                 path, entry->unit, entry->place, FRAME_MOST);
        return STATUS_REFUSED;
    }
    if (!make_room(pack)) {
        complain("%s: too long for the memory that there is", path);
        return STATUS_USAGE;
    }
    put_record(pack, &entry->runs);
    return STATUS_DONE;
}

/* Adds a frame, and names any other line as report does: it is left out. */
static int add_entry(struct pack *pack, const struct entry *entry, const char *path)
{
    if (entry->kind == ENTRY_FRAME)
        return add_frame(pack, entry, path);
    if (entry->kind == ENTRY_DAMAGED)
        table_output.damaged(entry);
    else
        table_output.passed(entry);
    return STATUS_DONE;
}

static int read_log(struct pack *pack, FILE *file, const struct bus *bus, const char *path)
{
    struct lines lines;
    struct entry entry;
    lines_start(&lines, file);
    for (;;) {
        log_next(&lines, bus, &entry);
        if (entry_is_last(&entry))
            break;
        int status = add_entry(pack, &entry, path);
        if (status != STATUS_DONE)
            return status;
    }
    if (entry.kind != ENTRY_NONE)
        return complain_of_entry(path, &entry);
    if (pack->length > 0)
        return STATUS_DONE;
    complain("%s: holds no frame", path);
    return STATUS_REFUSED;
}

int command_pack(const struct arguments *arguments)
{
    const char *log = arguments->operands[0], *target = arguments->operands[1];
    struct pack pack = {NULL, 0, 0};
    FILE *file = is_target(target, "stream", log, "log") ? open_to_read(log) : NULL;
    if (!file)
        return STATUS_USAGE;
    int status = read_log(&pack, file, arguments->bus, shown_path(log));
    close_read(file);
    if (status == STATUS_DONE)
        status = write_file(target, pack.bytes, pack.length);
    free(pack.bytes);
    if (status != STATUS_DONE)
        return status;
    size_t frames = pack.length / RAKHUBOLE_STREAM_FRAME_RECORD;
    put_safely(stdout, target, strlen(target));
    printf(": written\n  %zu frame%s, %zu bytes\n", frames, frames == 1 ? "" : "s", pack.length);
    return STATUS_DONE;
}
