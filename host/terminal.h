/* What a terminal can show. */
#ifndef TERMINAL_H
#define TERMINAL_H

#include <stdbool.h>

enum color { COLOR_NONE, COLOR_GREEN, COLOR_RED, COLOR_GREY };

/* What to write to the standard output before colored text, and behind it:
 * nothing unless it is a terminal with colors and NO_COLOR is not set. */
const char *color_on(enum color color);
const char *color_off(enum color color);

/* Whether progress is wanted: somebody looks at the error output, and the
 * standard output goes elsewhere. */
bool wants_progress(void);

#endif
