/* Stands for the library in one test: answers that it never gives, so that what
 * the tool does with them is seen. The first data byte chooses the answer, and
 * the first byte of a part those of a stream. */
#include "rakhubole.h"

#include <string.h>

enum { ODD_REFUSAL = 99 };

enum {
    NUMBER = RAKHUBOLE_ROW_NUMBER,
    STATE = RAKHUBOLE_ROW_STATE,
    INVALID = RAKHUBOLE_ROW_INVALID,
    SHORT = RAKHUBOLE_ROW_SHORT,
    UNKNOWN = RAKHUBOLE_ROW_UNKNOWN,
    LEFT = RAKHUBOLE_ROW_LEFT,
    ANSWERED = RAKHUBOLE_ROW_ANSWERED,
    VERDICT = RAKHUBOLE_ROW_VERDICT,
    CLEAR = RAKHUBOLE_CLEAR
};

uint64_t rakhubole_j1850_read(const uint8_t *first, size_t first_length, const uint8_t *response,
                              size_t response_length)
{
    (void)first, (void)response, (void)response_length;
    return first_length < 5 ? RAKHUBOLE_FIRST_RUN_SHORT : 3 << 8 | (first_length - 4) << 16;
}

uint64_t rakhubole_j1850_write(const uint8_t *header, size_t header_length, const uint8_t *data,
                               size_t data_length, const uint8_t *response,
                               size_t response_length, uint8_t *out, size_t out_length)
{
    (void)header, (void)header_length, (void)data, (void)data_length;
    (void)response, (void)response_length, (void)out, (void)out_length;
    return ODD_REFUSAL;
}

uint64_t rakhubole_iso9141_read(const uint8_t *run, size_t run_length)
{
    return rakhubole_j1850_read(run, run_length, NULL, 0);
}

uint64_t rakhubole_iso9141_write(const uint8_t *header, size_t header_length, const uint8_t *data,
                                 size_t data_length, uint8_t *out, size_t out_length)
{
    return rakhubole_j1850_write(header, header_length, data, data_length, NULL, 0, out,
                                 out_length);
}

/* A supplement that starts with EEh is refused, with a place beyond its end. */
uint64_t rakhubole_supplement_check(const uint8_t *supplement, size_t supplement_length)
{
    return supplement_length && supplement[0] == 0xEE ? ODD_REFUSAL | 5000 << 8 : 0;
}

struct odd {
    size_t length, claimed;
    uint8_t rows[RAKHUBOLE_ROWS_MOST];
};

/* The last rows of a report with nothing wrong. */
#define CLEAR_ROWS LEFT, 0, ANSWERED, 0, VERDICT, CLEAR

static const struct odd odds[] = {
    {0, RAKHUBOLE_ROWS_MOST + 1, {0}},                        /* 0: longer than was lent */
    {7, 7, {0, CLEAR_ROWS}},                                  /* 1: no such kind of row */
    {4, 4, {LEFT, 0, NUMBER, 0}},                             /* 2: a row that is cut */
    {6, 6, {LEFT, 0, ANSWERED, 0, LEFT, 0}},                  /* 3: no verdict */
    {26, 26, {SHORT, SHORT, SHORT, SHORT, SHORT, SHORT, SHORT, SHORT, SHORT, SHORT,
              SHORT, SHORT, SHORT, SHORT, SHORT, SHORT, SHORT, SHORT, SHORT, SHORT,
              CLEAR_ROWS}},                                   /* 4: too many rows */
    {4, 4, {ANSWERED, 0, VERDICT, CLEAR}},                    /* 5: too few rows */
    {0, 0, {0}},                                              /* 6: no rows */
    {25, 25, {NUMBER, 0x7F, 0xF8, 0, 0, 0, 0, 0, 0, 0, 0, 0, 0, 0, 0, 0, 0, 0, 1,
              CLEAR_ROWS}},                                   /* 7: no number, no PRN */
    {6, 6, {LEFT, 0, ANSWERED, 0, VERDICT, 9}},               /* 8: no such verdict */
    {8, 8, {UNKNOWN, 99, LEFT, 0, ANSWERED, 7, VERDICT,
            RAKHUBOLE_VERDICT_UNKNOWN}},                      /* 9: no such Unknown, no such kind */
    {16, 16, {INVALID, 0, 0, 0, 1, STATE, 0, 0, 0, 2, LEFT, 0, ANSWERED, 0, VERDICT,
              RAKHUBOLE_FLAGGED}},                            /* 10: lines without PRN */
    {25, 25, {NUMBER, 0, 0, 0, 0, 0, 0, 0, 0, 0, 0, 0, 0, 0, 0, 0, 1, 0, 0,
              CLEAR_ROWS}},                                   /* 11: the divisor is 0 */
    {25, 25, {NUMBER, 0, 0, 0, 0, 0, 0, 0, 0, 0, 2, 0, 0, 0, 0, 0, 1, 0, 1,
              CLEAR_ROWS}},                                   /* 12: over 2 to the 49th */
    {25, 25, {NUMBER, 0, 0, 0, 0, 0, 0, 0, 0, 0xFF, 0xFD, 0xFF, 0xFF, 0xFF, 0xFF, 0xFF, 0xFF,
              0, 1, CLEAR_ROWS}},                             /* 13: the same, negative */
    {25, 25, {NUMBER, 0, 0, 0, 0, 0, 0, 0, 0, 0x80, 0, 0, 0, 0, 0, 0, 0, 0, 1,
              CLEAR_ROWS}},                                   /* 14: the lowest in 8 bytes */
    {15, 15, {NUMBER, 0, 0, 0, 0, 0, 0, 0, 0, CLEAR_ROWS}},   /* 15: a Number without fraction */
    {44, 44, {NUMBER, 0x43, 0, 0, 0, 0, 0, 0, 0, 0, 2, 0, 0, 0, 0, 0, 0, 0, 1,
              NUMBER, 0xC2, 0, 0, 0x10, 0, 0x10, 0, 0x10, 0xFF, 0xFE, 0, 0, 0, 0, 0, 0,
              0xFF, 0xFF, CLEAR_ROWS}}};                      /* 16: both limits */

uint64_t rakhubole_j1850_report(const uint8_t *supplement, size_t supplement_length,
                                const uint8_t *first, size_t first_length,
                                const uint8_t *response, size_t response_length, uint8_t *out,
                                size_t out_length)
{
    (void)supplement, (void)supplement_length, (void)response, (void)response_length;
    (void)out_length;
    if (first_length < 5 || first[3] >= sizeof odds / sizeof *odds)
        return ODD_REFUSAL;
    const struct odd *odd = &odds[first[3]];
    memcpy(out, odd->rows, odd->length);
    return (uint64_t)odd->claimed << 8;
}

uint64_t rakhubole_iso9141_report(const uint8_t *supplement, size_t supplement_length,
                                  const uint8_t *run, size_t run_length, uint8_t *out,
                                  size_t out_length)
{
    return rakhubole_j1850_report(supplement, supplement_length, run, run_length, NULL, 0, out,
                                  out_length);
}

/* What a stream's calls answer: the word, the bytes taken, counted from the end
 * of the part, and the end. */
struct odd_stream {
    uint64_t told;
    int taken;
    uint64_t end;
};

#define FRAME_OF(first, second) (UINT64_C(1) << 8 | (first) << 16 | (uint64_t)(second) << 24)

enum { NOTHING = -1000 }; /* taken */

static const struct odd_stream odd_streams[] = {
    {FRAME_OF(5, 0), NOTHING, 0},            /* 0: a frame, and nothing taken */
    {FRAME_OF(5, 0), 1, 0},                  /* 1: more taken than was fed */
    {FRAME_OF(7, 6), 0, 0},                  /* 2: thirteen bytes in two runs */
    {FRAME_OF(255, 255), 0, 0},              /* 3: far more */
    {0, NOTHING, 0},                         /* 4: nothing told and nothing taken */
    {0, -1, 0},                              /* 5: nothing told and a byte left */
    {0, 1, 0},                               /* 6: nothing told, more taken than was fed */
    {ODD_REFUSAL, 0, 0},                     /* 7: no such refusal */
    {RAKHUBOLE_OUT_TOO_SHORT, 0, 0},         /* 8: twelve bytes are too few */
    {RAKHUBOLE_STREAM_RECORD_WRONG, NOTHING, 0}, /* 9: a refusal, and nothing taken */
    {RAKHUBOLE_STREAM_CUT, 0, 0},            /* 10: cut before the end */
    {FRAME_OF(5, 0) | 1 << 9, 0, 0},         /* 11: three frames at once */
    {0, 0, ODD_REFUSAL},                     /* 12: no such end */
    {0, 0, RAKHUBOLE_STREAM_CUT | 1 << 8},   /* 13: an end with more in it */
    {FRAME_OF(5, 0), 0, 0},                  /* 14: a frame, at a place that cannot be */
    {FRAME_OF(12, 0), 0, 0}};                /* 15: twelve bytes in the first run */

static const struct odd_stream *odd_stream_of(uint8_t byte)
{
    return &odd_streams[byte % (sizeof odd_streams / sizeof *odd_streams)];
}

uint64_t rakhubole_stream_read(const uint8_t state[RAKHUBOLE_STREAM_STATE], const uint8_t *part,
                               size_t part_length, uint8_t *out, size_t out_length)
{
    static const uint8_t runs[] = {0x48, 0x6B, 0x10, 0x08, 0, 0, 0, 0, 0, 0, 0, 0};
    (void)state, (void)part_length;
    memcpy(out, runs, out_length < sizeof runs ? out_length : sizeof runs);
    return odd_stream_of(part[0])->told;
}

uint64_t rakhubole_stream_advance(uint8_t state[RAKHUBOLE_STREAM_STATE], const uint8_t *part,
                                  size_t part_length)
{
    int taken = odd_stream_of(part[0])->taken;
    state[0] = part[0];
    return taken == NOTHING ? 0 : part_length + (uint64_t)taken;
}

uint64_t rakhubole_stream_end(const uint8_t state[RAKHUBOLE_STREAM_STATE])
{
    return odd_stream_of(state[0])->end;
}

uint64_t rakhubole_stream_place(const uint8_t state[RAKHUBOLE_STREAM_STATE])
{
    return state[0];
}
