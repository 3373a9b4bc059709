/* A record from a line of a supplement's text. */
#ifndef TEXT_RECORD_H
#define TEXT_RECORD_H

#include "records.h"

enum { TEXT_FAULT_SIZE = 160 };

/* The size of the record whose bytes were put in `out`; 0 for a line without
 * record, or with a fault, which is then said in words. */
size_t text_record(const char *line, size_t length, uint8_t out[LAYOUT_SIZE],
                   char fault[TEXT_FAULT_SIZE]);

#endif
