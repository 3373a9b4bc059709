/* Messages on the error output, and text of others made safe to show. */
#ifndef MESSAGE_H
#define MESSAGE_H

#include <stddef.h>
#include <stdio.h>

/* Exit statuses. */
enum {
    STATUS_DONE = 0,
    STATUS_REFUSED = 1, /* of what was given, or by --strict */
    STATUS_USAGE = 2    /* arguments, and files that cannot be read or written */
};

/* Writes the text with every byte that is not printable ASCII as \xNN. */
void put_safely(FILE *file, const char *text, size_t length);

#ifdef __GNUC__
#define CHECKED_AS_PRINTF __attribute__((format(printf, 1, 2)))
#else
#define CHECKED_AS_PRINTF
#endif

/* Writes one line to the error output: the program's name and the message,
 * made safe as a whole. */
void complain(const char *format, ...) CHECKED_AS_PRINTF;

/* Flushes the output; STATUS_USAGE and a message if it cannot be written. */
int flush_output(void);

#endif
