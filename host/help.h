/* What the program says of itself. */
#ifndef HELP_H
#define HELP_H

#include <stdbool.h>
#include <stdio.h>

/* What a command is given, NULL if there is none of that name. */
const char *help_operands(const char *command);

/* The commands with a line each. */
void put_overview(FILE *file);

/* All about a command; false if there is none of that name. */
bool put_help(const char *command);

#endif
