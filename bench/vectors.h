/* vectors.h: the committed vector files, case by case. */
#ifndef VECTORS_H
#define VECTORS_H

#include "calls.h"
#include "rakhubole.h"

/* What is done with a case; `where` names its line. */
typedef void visit(const struct request *request, const char *where, void *state);

/* The output that is lent is part of so many bytes: the rows of any report, and
 * some behind them. */
#define BUFFER (RAKHUBOLE_ROWS_MOST + 16)

/* Visits each case of the vector files below that folder and answers how many
 * there were. */
size_t visit_vectors(const char *crates, visit *visitor, void *state);

#endif
