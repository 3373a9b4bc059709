/* A supplement from a file. */
#ifndef LOAD_H
#define LOAD_H

#include "records.h"

/* Reads the file, or the standard input for "-". Of a file over the limit, one
 * byte too many is kept. STATUS_DONE, or a message and STATUS_USAGE. */
int supplement_load(struct supplement *supplement, const char *path);

/* Reads the file and asks the library to accept it. STATUS_DONE, or a message
 * and the status. */
int supplement_accept(struct supplement *supplement, const char *path);

#endif
