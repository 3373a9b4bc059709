/* The numbers of the papers in words. */
#ifndef WORDS_H
#define WORDS_H

#include "format.h"

/* Each gives words for any number; a form that is none gives NULL. Those of a
 * refusal are for what was read, where a module may be at fault; sending_words
 * are for what is to be sent, of which no module knows yet. */
const char *refusal_words(unsigned refusal);
const char *sending_words(unsigned refusal);
const char *unknown_words(unsigned unknown);
const char *row_word(unsigned row_kind);
const char *verdict_word(unsigned verdict);
const char *verdict_reason(unsigned verdict);
const char *response_words(unsigned response_kind);
const char *form_name(unsigned form);

#endif
