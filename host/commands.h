/* The commands. Each gives the exit status; its operands have been counted. */
#ifndef COMMANDS_H
#define COMMANDS_H

#include "arguments.h"

int command_report(const struct arguments *arguments);
int command_check(const struct arguments *arguments);
int command_compile(const struct arguments *arguments);
int command_show(const struct arguments *arguments);
int command_frame(const struct arguments *arguments);
int command_send(const struct arguments *arguments);
int command_pack(const struct arguments *arguments);

#endif
