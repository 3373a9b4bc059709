/* What a supplement holds. */
#ifndef SUMMARY_H
#define SUMMARY_H

#include "records.h"

#include <stdio.h>

/* Writes the number of bytes and of records by kind, the PRNs that layouts name
 * and neither table has, and the layouts that can show no item since their
 * header's selector has another length, each line with this before it. Only for a
 * supplement that the library accepts. */
void put_summary(FILE *file, const struct supplement *supplement, const char *before);

#endif
