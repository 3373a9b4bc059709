/* The report's input: flags, the length lent, the frame, then the supplement,
 * so that a change of the supplement's length leaves the frame as it is. */
#include "draft.h"

const enum call target_call = CALL_REPORT;

size_t draft_runs(struct feed *feed, struct draft runs[MOST_RUNS])
{
    uint8_t flags = take_byte(feed);
    size_t lent = take_room(feed);
    draft_frame(feed, &runs[1], &runs[2]);
    draft_report_supplement(feed, flags, &runs[0], &runs[1]);
    seal_frame(flags, &runs[1], &runs[2]);
    return lent;
}
