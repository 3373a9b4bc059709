/* The writer's input: flags, header, data and response, each but the header
 * behind its length, and the length lent. */
#include "draft.h"
#include "format.h"

const enum call target_call = CALL_WRITE;

size_t draft_runs(struct feed *feed, struct draft runs[MOST_RUNS])
{
    if (take_byte(feed) & ANY_HEADER_LENGTH) {
        put_run(&runs[0], feed, take_length(feed));
    } else {
        put_run(&runs[0], feed, 1);
        put_run(&runs[0], feed, runs[0].bytes[0] & BIT_H ? 0 : 2);
    }
    put_run(&runs[1], feed, take_length(feed));
    put_run(&runs[2], feed, take_length(feed));
    return take_length(feed);
}
