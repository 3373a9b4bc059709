/* The input of ISO 9141-2's writer: flags, header, data behind their length, and
 * the length lent. */
#include "draft.h"
#include "format.h"

const enum call target_call = CALL_ISO_WRITE;

size_t draft_runs(struct feed *feed, struct draft runs[MOST_RUNS])
{
    uint8_t flags = take_byte(feed);
    size_t header_length = flags & ANY_HEADER_LENGTH ? take_length(feed) : MESSAGE_HEADER;
    put_run(&runs[0], feed, header_length);
    fit_first_byte(flags, &runs[0]);
    put_run(&runs[1], feed, take_length(feed));
    return take_length(feed);
}
