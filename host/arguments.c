#include "arguments.h"

#include <string.h>

/* Where an option of this name is kept. */
static bool *option(struct arguments *arguments, const char *name)
{
    if (strcmp(name, "--adapter") == 0)
        return &arguments->adapter;
    if (strcmp(name, "--exact") == 0)
        return &arguments->exact;
    if (strcmp(name, "--json") == 0)
        return &arguments->json;
    if (strcmp(name, "--strict") == 0)
        return &arguments->strict;
    if (strcmp(name, "--help") == 0 || strcmp(name, "-h") == 0)
        return &arguments->help;
    return NULL;
}

/* Takes the word behind --bus, NULL if there is none. */
static struct misuse take_bus(struct arguments *arguments, const char *word)
{
    if (!word || !*word)
        return (struct misuse){"the bus is missing behind --bus: ", BUS_WORDS};
    arguments->bus = bus_find(word);
    return (struct misuse){arguments->bus ? NULL : "the bus is " BUS_WORDS ", not ", word};
}

struct misuse arguments_read(struct arguments *arguments, int count, char **values)
{
    struct misuse misuse = {NULL, NULL};
    bool are_options = true, *kept;
    *arguments = (struct arguments){.operands = values};
    for (int i = 0; i < count && !misuse.fault; i++) {
        char *value = values[i];
        if (!are_options || value[0] != '-' || value[1] == '\0')
            arguments->operands[arguments->count++] = value;
        else if (strcmp(value, "--") == 0)
            are_options = false;
        else if (strcmp(value, "--bus") == 0)
            misuse = take_bus(arguments, ++i < count ? values[i] : NULL);
        else if ((kept = option(arguments, value)))
            *kept = true;
        else
            misuse = (struct misuse){"there is no option ", value};
    }
    return misuse;
}
