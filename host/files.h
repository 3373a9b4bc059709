/* Files to read; the path "-" is the standard input. */
#ifndef FILES_H
#define FILES_H

#include <stdbool.h>
#include <stdio.h>

/* Opens the file, or gives NULL after a message. A directory is a fault. */
FILE *open_to_read(const char *path);

/* Closes what open_to_read gave, but not the standard input. */
void close_read(FILE *file);

/* The path as messages name it. */
const char *shown_path(const char *path);

/* Whether the file can be read from the start again, and its size. */
bool is_regular(FILE *file, unsigned long long *size);

#endif
