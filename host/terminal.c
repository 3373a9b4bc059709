#include "terminal.h"

#include <stdlib.h>
#include <string.h>
#include <unistd.h>

static bool has_colors(void)
{
    const char *refused = getenv("NO_COLOR"), *terminal = getenv("TERM");
    return isatty(STDOUT_FILENO) && !(refused && *refused) &&
           !(terminal && strcmp(terminal, "dumb") == 0);
}

const char *color_on(enum color color)
{
    static const char *const codes[] = {"", "\x1B[32m", "\x1B[31m", "\x1B[90m"};
    return has_colors() ? codes[color] : "";
}

const char *color_off(enum color color)
{
    return color != COLOR_NONE && has_colors() ? "\x1B[0m" : "";
}

bool wants_progress(void)
{
    return isatty(STDERR_FILENO) && !isatty(STDOUT_FILENO);
}
