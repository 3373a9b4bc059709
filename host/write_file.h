/* A file written whole or not at all. */
#ifndef WRITE_FILE_H
#define WRITE_FILE_H

#include <stdbool.h>
#include <stddef.h>
#include <stdint.h>

/* Writes the bytes beside the path and then puts them in its place, so that
 * what stood there stays unless all is written. STATUS_DONE, or a message and
 * STATUS_USAGE. */
int write_file(const char *path, const uint8_t *bytes, size_t length);

/* Whether what is made from a source can be written to the path: a file, and not
 * the source itself. If not, a message that calls both so: "supplement", "text". */
bool is_target(const char *path, const char *made, const char *source, const char *from);

#endif
