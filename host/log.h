/* A log of frames as text, line by line. */
#ifndef LOG_H
#define LOG_H

#include "entry.h"
#include "lines.h"

/* Reads the next entry of a log of that bus; blank lines and comments are none. */
void log_next(struct lines *lines, const struct bus *bus, struct entry *entry);

#endif
