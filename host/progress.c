#include "progress.h"

#include "terminal.h"

#include <inttypes.h>
#include <stdio.h>

static const long STEP_MILLISECONDS = 200;

void progress_start(struct progress *progress, unsigned long long size)
{
    progress->is_wanted = wants_progress();
    progress->is_shown = false;
    progress->size = size;
    clock_gettime(CLOCK_MONOTONIC, &progress->last);
}

void progress_step(struct progress *progress, const struct entry *entry,
                   unsigned long long place)
{
    struct timespec now;
    if (!progress->is_wanted)
        return;
    clock_gettime(CLOCK_MONOTONIC, &now);
    long passed = (now.tv_sec - progress->last.tv_sec) * 1000 +
                  (now.tv_nsec - progress->last.tv_nsec) / 1000000;
    if (passed < STEP_MILLISECONDS)
        return;
    progress->last = now;
    progress->is_shown = true;
    fprintf(stderr, "\r\x1B[K%s %" PRIu64, entry->unit, entry->place);
    if (progress->size > 0 && place <= progress->size)
        fprintf(stderr, ", %llu %%", 100 * place / progress->size);
    fflush(stderr);
}

void progress_end(struct progress *progress)
{
    if (progress->is_shown)
        fputs("\r\x1B[K", stderr);
    progress->is_shown = false;
}
