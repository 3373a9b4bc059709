/* The input of ISO 9141-2's report, in the order of fuzz/report.c: flags, the
 * length lent, the message, then the supplement. */
#include "draft.h"

const enum call target_call = CALL_ISO_REPORT;

size_t draft_runs(struct feed *feed, struct draft runs[MOST_RUNS])
{
    struct draft *supplement = &runs[0], *message = &runs[1];
    uint8_t flags = take_byte(feed);
    size_t lent = take_room(feed);
    put_run(message, feed, take_length(feed));
    draft_report_supplement(feed, flags, supplement, message);
    seal_message(flags, message);
    return lent;
}
