/* Characters of text. */
#ifndef TEXT_H
#define TEXT_H

#include <stdbool.h>

/* A space or a tab. */
bool is_blank(char c);

/* The capital of a letter; any other character as it is. */
char capital(char c);

#endif
