/* The input of ISO 9141-2's reader: flags, then the run behind its length. */
#include "draft.h"

const enum call target_call = CALL_ISO_READ;

size_t draft_runs(struct feed *feed, struct draft runs[MOST_RUNS])
{
    uint8_t flags = take_byte(feed);
    put_run(&runs[0], feed, take_length(feed));
    seal_message(flags, &runs[0]);
    return 0;
}
