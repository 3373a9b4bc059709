/* What the targets of one call share: an input makes a request, which is judged. */
#include "target.h"

#include "classes.h"
#include "draft.h"
#include "judged.h"

int LLVMFuzzerTestOneInput(const uint8_t *bytes, size_t size)
{
    static struct draft runs[MOST_RUNS];
    static uint8_t out[MOST_OUT];
    struct feed feed = {bytes, size};
    struct request request = {.call = target_call, .out = out};
    for (size_t i = 0; i < MOST_RUNS; i++)
        runs[i].length = 0;
    request.out_length = draft_runs(&feed, runs);
    for (size_t i = 0; i < MOST_RUNS; i++)
        request.in[i] = (struct run){runs[i].bytes, runs[i].length};
    judged_answer(&request);
    return 0;
}

bool show_target(void)
{
    return show_classes(target_call);
}
