/* Progress on a long log or stream, on the error output. */
#ifndef PROGRESS_H
#define PROGRESS_H

#include "entry.h"

#include <stdbool.h>
#include <time.h>

struct progress {
    bool is_wanted, is_shown;
    unsigned long long size; /* of the file, 0 if its end is not known */
    struct timespec last;
};

void progress_start(struct progress *progress, unsigned long long size);

/* Shows the entry's place and how much of the file is read, some times a second. */
void progress_step(struct progress *progress, const struct entry *entry,
                   unsigned long long place);

/* Takes away what was shown. */
void progress_end(struct progress *progress);

#endif
