#include "vectors.h"

#include "format.h"

#include <stdio.h>
#include <stdlib.h>
#include <string.h>

/* Some vectors are over the limit of a supplement. */
#define MOST_BYTES (SUPPLEMENT_MOST + 16)
/* The longest line: three runs, of which one is a supplement. */
#define MOST_LINE (2 * MOST_BYTES + 200)

static uint8_t runs[MOST_RUNS][MOST_BYTES];
static uint8_t output[BUFFER];

static size_t number_at(const char *text, size_t digits)
{
    char copy[9] = "";
    memcpy(copy, text, digits);
    return strtoul(copy, NULL, 16);
}

/* Puts the bytes that the text spells in the i-th run of the request. */
static void take_run(struct request *request, size_t i, const char *text, size_t length)
{
    for (size_t at = 0; at < length; at++)
        runs[i][at] = (uint8_t)number_at(text + 2 * at, 2);
    request->in[i] = (struct run){runs[i], length};
}

/* Of a letter in front of a line: R and W are J1850's, r and w are those of
 * ISO 9141-2. */
static enum call frame_call(char letter)
{
    switch (letter) {
    case 'R': return CALL_READ;
    case 'W': return CALL_WRITE;
    case 'r': return CALL_ISO_READ;
    default: return CALL_ISO_WRITE;
    }
}

/* A call, then three runs of fixed columns and the length lent; a run that the
 * call does not have is empty. */
static void frame_case(const char *line, struct request *request)
{
    request->call = frame_call(line[0]);
    for (size_t i = 0; i < MOST_RUNS; i++)
        take_run(request, i, line + 5 + 36 * i, number_at(line + 2 + 36 * i, 2));
    request->out_length = number_at(line + 110, 2);
}

static void supplement_case(const char *line, struct request *request)
{
    request->call = CALL_CHECK;
    take_run(request, 0, line + 5, number_at(line, 4));
}

/* The bus, J or I, then three runs, each behind its length, and the length
 * lent; on ISO 9141-2 the third is empty. */
static void report_case(const char *line, struct request *request)
{
    request->call = line[0] == 'J' ? CALL_REPORT : CALL_ISO_REPORT;
    line += 2;
    for (size_t i = 0; i < MOST_RUNS; i++) {
        size_t length = number_at(line, 4);
        take_run(request, i, line + 5, length);
        line += 5 + 2 * length + 1;
    }
    request->out_length = number_at(line, 4);
}

/* The letter S, a state, a part behind its length, and the length lent, in fixed
 * columns. The line is a case of each call of the stream: this is the first. */
static void stream_case(const char *line, struct request *request)
{
    take_run(request, 0, line + 2, RAKHUBOLE_STREAM_STATE);
    take_run(request, 1, line + 54, number_at(line + 51, 2));
    *request = stream_request(CALL_STREAM_READ, runs[0], request->in[1], output,
                              number_at(line + 183, 2));
}

/* Makes the request that of the next call which the line is a case of, if there
 * is one. */
static bool has_next_call(struct request *request)
{
    if (request->call < CALL_STREAM_READ || request->call == CALL_STREAM_PLACE)
        return false;
    *request = stream_request(request->call + 1, runs[0], request->in[1], output, 0);
    return true;
}

static void require_room(const struct request *request, const char *where)
{
    if (request->out_length <= BUFFER)
        return;
    fprintf(stderr, "%s lends %zu bytes, more than %d\n", where, request->out_length, BUFFER);
    exit(1);
}

static size_t visit_file(const char *crates, const char *name,
                         void (*parse)(const char *, struct request *), visit *visitor, void *state)
{
    static char line[MOST_LINE];
    char path[4096], where[4200];
    size_t cases = 0, lines = 0;
    snprintf(path, sizeof path, "%s/%s/stdin", crates, name);
    FILE *file = fopen(path, "r");
    if (!file) {
        perror(path);
        exit(1);
    }
    while (fgets(line, sizeof line, file)) {
        struct request request = {.out = output};
        parse(line, &request);
        snprintf(where, sizeof where, "%s, line %zu", path, ++lines);
        require_room(&request, where);
        do {
            visitor(&request, where, state);
            cases++;
        } while (has_next_call(&request));
    }
    fclose(file);
    return cases;
}

size_t visit_vectors(const char *crates, visit *visitor, void *state)
{
    return visit_file(crates, "frame_vectors", frame_case, visitor, state) +
           visit_file(crates, "supplement_vectors", supplement_case, visitor, state) +
           visit_file(crates, "report_vectors", report_case, visitor, state) +
           visit_file(crates, "stream_vectors", stream_case, visitor, state);
}
