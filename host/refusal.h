/* The refusal of a supplement in words. */
#ifndef REFUSAL_H
#define REFUSAL_H

#include "records.h"

enum { RECORD_TITLE_SIZE = 64, RECORD_FAULT_SIZE = 192, FAULT_SIZE = 448 };

/* What the record is: "PRN 1025h", "layout 08h 6Bh selector 41h 0Ch", "selector
 * length of 08h 6Ah". */
void record_title(const struct record *record, char title[RECORD_TITLE_SIZE]);

/* The record at the place of a refusal from 11 to 15. */
struct record record_at(const struct supplement *supplement, size_t place);

/* Why the library refuses the record, with the refusal's number. The detail
 * behind it, such as the field, is this program's own finding. */
void record_fault(const struct record *record, unsigned refusal, char words[RECORD_FAULT_SIZE]);

/* The first record with the same key. */
struct record record_alike(const struct supplement *supplement, const struct record *record);

/* The whole refusal: "record 17 at byte 340, PRN 1025h: already in the SAE
 * tables (15)". */
void supplement_fault(const struct supplement *supplement, uint64_t answer,
                      char words[FAULT_SIZE]);

/* What a refused file looks like, if its length and kinds fit the earlier form of
 * layouts, in words for behind "it"; or NULL. */
const char *earlier_form_words(const struct supplement *supplement);

#endif
