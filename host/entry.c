#include "entry.h"

#include "message.h"

#include <inttypes.h>

bool entry_is_last(const struct entry *entry)
{
    return entry->kind == ENTRY_NONE || entry->kind == ENTRY_FAULT ||
           entry->kind == ENTRY_ODD || entry->kind == ENTRY_UNREADABLE;
}

int complain_of_entry(const char *path, const struct entry *entry)
{
    enum { SHOWN = 60 };
    if (entry->kind == ENTRY_UNREADABLE) {
        complain("%s: %s", path, entry->words);
        return STATUS_USAGE;
    }
    if (entry->kind == ENTRY_ODD) {
        complain("%s %s %" PRIu64 ": the answers of the library are not as its papers say", path,
                 entry->unit, entry->place);
        return STATUS_USAGE;
    }
    if (!entry->text) {
        complain("%s %s %" PRIu64 ": no message of this bus (%s)", path, entry->unit, entry->place,
                 entry->words);
        return STATUS_REFUSED;
    }
    int shown = entry->length < SHOWN ? (int)entry->length : SHOWN;
    complain("%s %s %" PRIu64 ": neither a frame nor a line of an adapter (%s): \"%.*s%s\"", path,
             entry->unit, entry->place, entry->words, shown, entry->text,
             entry->length > SHOWN ? "..." : "");
    return STATUS_REFUSED;
}
