/* The reader's input: flags, then both runs, each behind its length. */
#include "draft.h"

const enum call target_call = CALL_READ;

size_t draft_runs(struct feed *feed, struct draft runs[MOST_RUNS])
{
    uint8_t flags = take_byte(feed);
    draft_frame(feed, &runs[0], &runs[1]);
    seal_frame(flags, &runs[0], &runs[1]);
    return 0;
}
