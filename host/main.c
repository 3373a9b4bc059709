/* rakhubole: the host tool over the library. */
#include "arguments.h"
#include "commands.h"
#include "help.h"
#include "message.h"
#include "rakhubole.h"

#include <string.h>

struct command {
    const char *name;
    int (*run)(const struct arguments *arguments);
    size_t least, most; /* operands */
    bool has_bus, has_options;
};

static const struct command commands[] = {
    {"report", command_report, 2, 2, true, true},
    {"check", command_check, 1, 1, false, false},
    {"compile", command_compile, 2, 2, false, false},
    {"show", command_show, 1, 1, false, false},
    {"frame", command_frame, 1, (size_t)-1, true, false},
    {"send", command_send, 2, PARTS, true, false},
    {"pack", command_pack, 2, 2, true, false}};

static const struct command *find_command(const char *name)
{
    for (size_t i = 0; i < sizeof commands / sizeof *commands; i++)
        if (strcmp(commands[i].name, name) == 0)
            return &commands[i];
    return NULL;
}

static int complain_of_use(const struct command *command, const char *fault, const char *what)
{
    complain("%s%s; use: rakhubole %s %s, or see 'rakhubole help %s'", fault, what, command->name,
             help_operands(command->name), command->name);
    return STATUS_USAGE;
}

static bool has_options(const struct arguments *arguments)
{
    return arguments->adapter || arguments->exact || arguments->json || arguments->strict;
}

static int run_command(const struct command *command, int count, char **values)
{
    struct arguments arguments;
    struct misuse misuse = arguments_read(&arguments, count, values);
    if (misuse.fault)
        return complain_of_use(command, misuse.fault, misuse.what);
    if (arguments.help)
        return put_help(command->name) ? flush_output() : STATUS_USAGE;
    if (!command->has_options && has_options(&arguments))
        return complain_of_use(command, "only report takes --adapter, --exact, --json and --strict",
                               "");
    if (!command->has_bus && arguments.bus)
        return complain_of_use(command, "only report, frame, send and pack take --bus", "");
    if (arguments.count < command->least)
        return complain_of_use(command, "something is missing", "");
    if (arguments.count > command->most)
        return complain_of_use(command, "too much is given: ", arguments.operands[command->most]);
    if (!arguments.bus)
        arguments.bus = &j1850_bus;
    int status = command->run(&arguments);
    if (status != STATUS_USAGE && flush_output() != STATUS_DONE)
        status = STATUS_USAGE;
    return status;
}

static int complain_of_command(const char *name)
{
    complain("there is no command '%s': use report, check, compile, show, frame, send, pack or "
             "help", name);
    return STATUS_USAGE;
}

static int run_help(int count, char **values)
{
    if (count == 0)
        put_overview(stdout);
    else if (!put_help(values[0]))
        return complain_of_command(values[0]);
    return flush_output();
}

static int run_version(int count, char **values)
{
    if (count > 0) {
        complain("too much is given: %s; use: rakhubole --version", values[0]);
        return STATUS_USAGE;
    }
    puts("rakhubole " RAKHUBOLE_VERSION);
    return flush_output();
}

int main(int count, char **values)
{
    if (count < 2) {
        put_overview(stderr);
        return STATUS_USAGE;
    }
    const char *name = values[1];
    if (strcmp(name, "help") == 0 || strcmp(name, "--help") == 0 || strcmp(name, "-h") == 0)
        return run_help(count - 2, values + 2);
    if (strcmp(name, "--version") == 0)
        return run_version(count - 2, values + 2);
    const struct command *command = find_command(name);
    return command ? run_command(command, count - 2, values + 2) : complain_of_command(name);
}
