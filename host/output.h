/* How reports are shown: as tables, their Numbers decimals or fractions, or as
 * JSON. */
#ifndef OUTPUT_H
#define OUTPUT_H

#include "entry.h"
#include "reading.h"

/* How many lines of a log, or records of a stream, were what. */
struct tally {
    size_t clear, flagged, unknown, refused, damaged, passed;
    size_t records; /* refused, so no frames */
    size_t of_other_bus; /* refused for the check byte here, accepted there */
};

struct output {
    void (*reading)(const struct entry *entry, const struct reading *reading);
    void (*refused)(const struct entry *entry, unsigned refusal);
    void (*damaged)(const struct entry *entry);
    void (*passed)(const struct entry *entry);
    void (*end)(const struct tally *tally);
};

extern const struct output table_output;
extern const struct output exact_output;
extern const struct output json_output;

#endif
