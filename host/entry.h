/* What report reads piece by piece: a line of a log or a record of a stream. */
#ifndef ENTRY_H
#define ENTRY_H

#include "bus.h"

enum entry_kind {
    ENTRY_FRAME,
    ENTRY_DAMAGED, /* the adapter says that a frame was damaged or lost */
    ENTRY_REFUSED, /* a record of a stream that the library refuses */
    ENTRY_PASSED,  /* a line of the adapter that holds no frame */
    ENTRY_NONE,    /* there is no more */
    ENTRY_FAULT,   /* neither a frame nor a line of an adapter */
    ENTRY_ODD,     /* an answer of the library that is not as its papers say */
    ENTRY_UNREADABLE
};

struct entry {
    enum entry_kind kind;
    const struct bus *bus;
    const char *unit; /* of its place: "line" of a log, "byte" of a stream */
    uint64_t place;   /* lines are counted from 1, bytes are those before a record */
    struct runs runs;  /* of a frame, or of what a damaged line holds */
    unsigned refusal;  /* of a record */
    const char *words; /* what the line is, but for a frame, or what is wrong */
    const char *text;  /* what the line says; it stands until the next is read;
                          NULL in a stream */
    size_t length;
};

/* Whether nothing can follow. */
bool entry_is_last(const struct entry *entry);

/* Says why the log or stream with this path cannot be read further; the exit status. */
int complain_of_entry(const char *path, const struct entry *entry);

#endif
