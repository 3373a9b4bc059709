/* Text read line by line, as it comes. */
#ifndef LINES_H
#define LINES_H

#include <stdbool.h>
#include <stddef.h>
#include <stdio.h>

/* A line that is longer is no line of a log or of a supplement's text. */
enum { LINE_MOST = 4096 };

struct lines {
    FILE *file;
    size_t number;        /* of the line read last, from 1 */
    unsigned long long place; /* bytes read */
    bool after_return;    /* a line feed here belongs to the line before */
    size_t length;
    char text[LINE_MOST];
};

enum line_answer { LINE_READ, LINE_NONE, LINE_TOO_LONG, LINE_UNREADABLE };

/* Starts at the place where the file stands. */
void lines_start(struct lines *lines, FILE *file);

/* Reads the next line, without its end: a line feed, a carriage return, or
 * both. A mark for UTF-8 at the start of the text is dropped. */
enum line_answer lines_next(struct lines *lines);

#endif
