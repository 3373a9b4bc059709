#include "lines.h"

#include <string.h>

static const char UTF8_MARK[] = "\xEF\xBB\xBF";
enum { UTF8_MARK_LENGTH = 3 };

void lines_start(struct lines *lines, FILE *file)
{
    lines->file = file;
    lines->number = 0;
    lines->place = 0;
    lines->after_return = false;
    lines->length = 0;
}

static int next_character(struct lines *lines)
{
    int c = getc(lines->file);
    if (c != EOF)
        lines->place++;
    return c;
}

static void drop_mark(struct lines *lines)
{
    if (lines->number != 1 || lines->length < UTF8_MARK_LENGTH)
        return;
    if (memcmp(lines->text, UTF8_MARK, UTF8_MARK_LENGTH) != 0)
        return;
    lines->length -= UTF8_MARK_LENGTH;
    memmove(lines->text, lines->text + UTF8_MARK_LENGTH, lines->length);
}

enum line_answer lines_next(struct lines *lines)
{
    int c = next_character(lines);
    if (lines->after_return && c == '\n')
        c = next_character(lines);
    lines->after_return = false;
    lines->length = 0;
    if (c == EOF)
        return ferror(lines->file) ? LINE_UNREADABLE : LINE_NONE;
    lines->number++;
    for (; c != EOF && c != '\n' && c != '\r'; c = next_character(lines)) {
        if (lines->length == LINE_MOST)
            return LINE_TOO_LONG;
        lines->text[lines->length++] = (char)c;
    }
    if (ferror(lines->file))
        return LINE_UNREADABLE;
    lines->after_return = c == '\r';
    drop_mark(lines);
    return LINE_READ;
}
