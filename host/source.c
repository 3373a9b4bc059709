#include "source.h"

#include "log.h"

#include <unistd.h>

const char *source_name(bool is_stream)
{
    return is_stream ? "stream" : "log";
}

void source_start(struct source *source, FILE *file)
{
    source->file = file;
    if (source->is_stream)
        stream_start(&source->stream, file);
    else
        lines_start(&source->lines, file);
}

void source_restart(struct source *source)
{
    if (source->is_stream)
        lseek(fileno(source->file), 0, SEEK_SET);
    else
        rewind(source->file);
    source_start(source, source->file);
}

void source_next(struct source *source, const struct bus *bus, struct entry *entry)
{
    if (source->is_stream)
        stream_next(&source->stream, bus, entry);
    else
        log_next(&source->lines, bus, entry);
}

unsigned long long source_place(const struct source *source)
{
    return source->is_stream ? source->stream.place : source->lines.place;
}
