/* What report reads: a log, or with --adapter the stream of a cable adapter. */
#ifndef SOURCE_H
#define SOURCE_H

#include "lines.h"
#include "stream.h"

struct source {
    bool is_stream;
    FILE *file;
    struct lines lines;
    struct stream stream;
};

/* What messages call it. */
const char *source_name(bool is_stream);

/* Starts at the place where the file stands. */
void source_start(struct source *source, FILE *file);

/* Starts at the beginning of the file again. */
void source_restart(struct source *source);

void source_next(struct source *source, const struct bus *bus, struct entry *entry);

/* How many bytes were read. */
unsigned long long source_place(const struct source *source);

#endif
