#include "message.h"

#include <errno.h>
#include <stdarg.h>
#include <string.h>

/* A path and some words; what is longer ends in dots. */
enum { MESSAGE_MOST = 8192 };

void put_safely(FILE *file, const char *text, size_t length)
{
    for (size_t i = 0; i < length; i++) {
        unsigned char c = (unsigned char)text[i];
        if (c >= 0x20 && c <= 0x7E)
            putc(c, file);
        else
            fprintf(file, "\\x%02X", c);
    }
}

void complain(const char *format, ...)
{
    char text[MESSAGE_MOST];
    va_list arguments;
    va_start(arguments, format);
    int length = vsnprintf(text, sizeof text, format, arguments);
    va_end(arguments);
    fflush(stdout);
    fputs("rakhubole: ", stderr);
    if (length >= 0)
        put_safely(stderr, text, strlen(text));
    fputs(length >= MESSAGE_MOST ? "...\n" : "\n", stderr);
}

int flush_output(void)
{
    if (fflush(stdout) == 0 && !ferror(stdout))
        return STATUS_DONE;
    complain("the output cannot be written: %s", strerror(errno));
    return STATUS_USAGE;
}
