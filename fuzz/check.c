#include "draft.h"

const enum call target_call = CALL_CHECK;

size_t draft_runs(struct feed *feed, struct draft runs[MOST_RUNS])
{
    draft_supplement(feed, &runs[0]);
    return 0;
}
