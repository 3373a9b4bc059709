/* rakhubole.h: frames of SAE J1850 with consolidated headers, messages of
 * ISO 9141-2, the supplement of records that makers add to the SAE tables,
 * reports of frames and messages, and the stream of a cable adapter.
 *
 * Every call takes byte runs and numbers, answers one uint64_t, and keeps
 * nothing between calls. It answers for all input and asks no check of its
 * caller, except what C itself asks of a pointer:
 *
 *   - a run of n bytes is a pointer and n; a NULL pointer with length 0 is an
 *     empty run;
 *   - a state is a pointer to RAKHUBOLE_STREAM_STATE bytes;
 *   - what a call writes, `out` or a state, overlaps nothing else that it takes.
 *
 * The low byte of the answer is the refusal, 0 for none; only the calls that
 * advance a state or tell a place use the whole answer, and they refuse nothing.
 * A refused call leaves each lent byte as it was, and the bits above the refusal
 * are zero, but for the place of a fault in a supplement.
 */
#ifndef RAKHUBOLE_H
#define RAKHUBOLE_H

#include <stddef.h>
#include <stdint.h>

#ifdef __cplusplus
extern "C" {
#endif

/* The version of this interface: its calls, answers, refusals, rows and records.
 * The first number changes where a caller or a supplement has to change. */
#define RAKHUBOLE_VERSION "4.0"

/* The refusal in an answer, 0 for none. */
#define RAKHUBOLE_REFUSAL(answer) ((unsigned)((answer) & 0xFF))

/* The refusals; the first that applies is given. On J1850 the reader tests 1,
 * 2, 3, 4, 50, 51, 52, 53, 6, the writer 7, 4, 50, 51, 53, 1, 8. On ISO 9141-2
 * the reader tests 1, 2, 3, 9, the writer 7, 9, 1, 8. A supplement is refused
 * with 10 or, at its first record with a fault, with the lowest of 11 to 15 that
 * applies. A report tests the supplement, then the frame or message, then 8. The
 * first record of a stream that is no tick gives 60, 61 or a frame, and then 8;
 * the end of a stream gives 62. */
enum {
    /* more than 12 bytes in all, both runs and their check bytes counted */
    RAKHUBOLE_OVER_TWELVE_BYTES = 1,
    /* the first run is empty, or shorter than its header and check byte; on
     * ISO 9141-2 below four bytes */
    RAKHUBOLE_FIRST_RUN_SHORT = 2,
    /* the check byte of the first run, or of the message, is wrong */
    RAKHUBOLE_CHECK_BYTE_WRONG = 3,
    /* bit K is 0 and the message type has no response kind (5, 6 or 7) */
    RAKHUBOLE_TYPE_UNASSIGNED = 4,
    /* the check byte of a kind 3 response is wrong */
    RAKHUBOLE_RESPONSE_CHECK_BYTE_WRONG = 6,
    /* writer: the header is not 1 or 3 bytes, or not as long as bit H says; on
     * ISO 9141-2 not 3 bytes */
    RAKHUBOLE_HEADER_LENGTH_WRONG = 7,
    /* `out` is shorter than the result */
    RAKHUBOLE_OUT_TOO_SHORT = 8,
    /* ISO 9141-2: the first byte has H = 1 or K = 0 */
    RAKHUBOLE_FIRST_BYTE_WRONG = 9,
    /* the supplement has more than 16,384 bytes */
    RAKHUBOLE_SUPPLEMENT_TOO_LONG = 10,
    /* a record's kind byte is not 1, 2, 3 or 4 */
    RAKHUBOLE_RECORD_KIND_UNKNOWN = 11,
    /* the supplement ends within a record */
    RAKHUBOLE_RECORD_CUT = 12,
    /* a field of a record is outside its range */
    RAKHUBOLE_FIELD_OUT_OF_RANGE = 13,
    /* an earlier record of the same kind has the same key */
    RAKHUBOLE_KEY_TWICE = 14,
    /* the key is in the SAE tables, which no supplement overrides */
    RAKHUBOLE_KEY_IN_SAE = 15,
    /* response bytes where K = 1 forbids them */
    RAKHUBOLE_RESPONSE_FORBIDDEN = 50,
    /* no response byte where K = 0 requires a response */
    RAKHUBOLE_RESPONSE_MISSING = 51,
    /* reader: a kind 3 response of one byte, where it needs two */
    RAKHUBOLE_RESPONSE_TOO_FEW = 52,
    /* more than one response byte for kind 1, which has exactly one */
    RAKHUBOLE_RESPONSE_TOO_MANY = 53,
    /* stream: a record's kind byte is not 1 or 2; no more is read */
    RAKHUBOLE_STREAM_KIND_UNKNOWN = 60,
    /* stream: the lengths of a whole frame record are over 12 together, or an
     * unused byte of it is not zero; reading goes on at the next record */
    RAKHUBOLE_STREAM_RECORD_WRONG = 61,
    /* stream: it ended inside a record */
    RAKHUBOLE_STREAM_CUT = 62
};

/* Reads a frame: the run before EOD (header, data, check byte) and the
 * response after it, which may be empty.
 *
 * Accepted: byte 1 of the answer is the length of the header (1 or 3), byte 2
 * that of the data, byte 3 the response kind (0 to 3), byte 4 the length of
 * the response without its check byte. The parts stand in the runs that were
 * lent: the header at the start of `first`, the data behind it, the response
 * at the start of `response`.
 */
uint64_t rakhubole_j1850_read(const uint8_t *first, size_t first_length,
                              const uint8_t *response, size_t response_length);

#define RAKHUBOLE_READ_HEADER(answer) ((size_t)((answer) >> 8 & 0xFF))
#define RAKHUBOLE_READ_DATA(answer) ((size_t)((answer) >> 16 & 0xFF))
#define RAKHUBOLE_READ_KIND(answer) ((unsigned)((answer) >> 24 & 0xFF))
#define RAKHUBOLE_READ_RESPONSE(answer) ((size_t)((answer) >> 32 & 0xFF))

/* Writes a frame from header, data and response, all without check bytes: the
 * first run and right behind it the response, at the start of `out`. Twelve
 * bytes are always enough.
 *
 * Accepted: byte 1 of the answer is the length of the first run, byte 2 that
 * of the response, both with their check bytes. No byte of `out` beyond them
 * is touched.
 */
uint64_t rakhubole_j1850_write(const uint8_t *header, size_t header_length,
                               const uint8_t *data, size_t data_length,
                               const uint8_t *response, size_t response_length,
                               uint8_t *out, size_t out_length);

#define RAKHUBOLE_WRITE_FIRST(answer) ((size_t)((answer) >> 8 & 0xFF))
#define RAKHUBOLE_WRITE_RESPONSE(answer) ((size_t)((answer) >> 16 & 0xFF))

/* Reads a message of ISO 9141-2: three header bytes, data, and a check byte,
 * the sum of the bytes before it modulo 256; there is no response.
 *
 * Accepted: as rakhubole_j1850_read, with a header of 3, and response kind and
 * length 0. The header stands at the start of `run`, the data behind it.
 */
uint64_t rakhubole_iso9141_read(const uint8_t *run, size_t run_length);

/* Writes a message of ISO 9141-2 from header and data, without check byte, at
 * the start of `out`. Twelve bytes are always enough.
 *
 * Accepted: byte 1 of the answer is the length of the message with its check
 * byte (RAKHUBOLE_WRITE_FIRST). No byte of `out` beyond it is touched.
 */
uint64_t rakhubole_iso9141_write(const uint8_t *header, size_t header_length,
                                 const uint8_t *data, size_t data_length,
                                 uint8_t *out, size_t out_length);

/* Tests a supplement: records one after the other, each a kind byte and a body
 * whose length the kind fixes, numbers with the most significant byte first.
 *
 *   kind 1, SLOT, 20 bytes: form (1), width in bits (1), number (2),
 *     multiplier (2), divisor (2), offset (4, signed), lowest raw (4),
 *     highest raw (4)
 *   kind 2, PRN, 6 bytes: PRN (2), form (1), width (1), SLOT number (2)
 *   kind 3, layout, 38 bytes: first byte, target, selector length (0, 1 or 2),
 *     selector (2, unused ones zero), count (0 to 16), sixteen PRNs (2 each)
 *   kind 4, selector length, 3 bytes: first byte, target, selector length (0, 1
 *     or 2)
 *
 * No two records of a kind have the same key: the first three fields of a SLOT,
 * the first of a PRN, the first five of a layout, the first two of a selector
 * length.
 *
 * The empty supplement is accepted. Refused: bits 8 to 31 of the answer are
 * the place of the first record with a fault, in bytes from the start.
 */
uint64_t rakhubole_supplement_check(const uint8_t *supplement, size_t supplement_length);

#define RAKHUBOLE_PLACE(answer) ((size_t)((answer) >> 8 & 0xFFFFFF))

/* Reports a frame under the SAE tables and a supplement: up to sixteen item
 * lines in the order of the layout's PRNs, the remainder, the response and the
 * verdict, each a row at the start of `out`. RAKHUBOLE_ROWS_MOST bytes are
 * always enough.
 *
 * The selector is the first data bytes, as many as the supplement's record of
 * kind 4 says for the header (first byte, its priority bits cleared if H = 0;
 * target, 0 if H = 1), one where it has none, and fewer where there are no more
 * data. The layout is the one with this header and just this selector; the items
 * follow the selector.
 *
 * Accepted: bits 8 to 31 of the answer are the length of the rows. No byte of
 * `out` beyond them is touched. Refused: with 10 to 15 these bits are the place
 * of the first record with a fault.
 */
uint64_t rakhubole_j1850_report(const uint8_t *supplement, size_t supplement_length,
                                const uint8_t *first, size_t first_length,
                                const uint8_t *response, size_t response_length,
                                uint8_t *out, size_t out_length);

#define RAKHUBOLE_ROWS_LENGTH(answer) ((size_t)((answer) >> 8 & 0xFFFFFF))
/* Sixteen Numbers, and the three last rows: 310 bytes. */
#define RAKHUBOLE_ROWS_MOST \
    (RAKHUBOLE_ITEMS_MOST * (1 + RAKHUBOLE_NUMBER_BODY) + 3 * (1 + RAKHUBOLE_OTHER_BODY))

/* Reports a message of ISO 9141-2 under the SAE tables and a supplement: rows
 * and answer as rakhubole_j1850_report gives them, the response Answered with 0.
 * Layouts are shared: a message that begins 68h 6Ah uses those of 08h, 6Ah.
 */
uint64_t rakhubole_iso9141_report(const uint8_t *supplement, size_t supplement_length,
                                  const uint8_t *run, size_t run_length,
                                  uint8_t *out, size_t out_length);

/* A row is its kind and a body, numbers with the most significant byte first.
 * Codes and raw numbers are the item's own bits, zeros before them. */
enum {
    /* an item's number: 18 bytes, a fraction and the double that it gives */
    RAKHUBOLE_ROW_NUMBER = 1,
    /* an item's code: 4 bytes. A State's lies within the limits of its SLOT;
     * for some such codes SAE prints no state (docs/SAE-TABLES.md). */
    RAKHUBOLE_ROW_STATE = 2,
    RAKHUBOLE_ROW_BITS = 3,
    RAKHUBOLE_ROW_TEXT = 4,
    RAKHUBOLE_ROW_DIGITS = 5,
    /* an item whose raw number, byte or digit is invalid: 4 bytes, raw */
    RAKHUBOLE_ROW_INVALID = 6,
    /* an item, or the remainder, for which the data are too short: no body */
    RAKHUBOLE_ROW_SHORT = 7,
    /* a line that nothing accounts for: 1 byte, why */
    RAKHUBOLE_ROW_UNKNOWN = 8,
    /* the remainder: 1 byte, the bits after the last item */
    RAKHUBOLE_ROW_LEFT = 9,
    /* the response: 1 byte, its kind, 0 to 2 */
    RAKHUBOLE_ROW_ANSWERED = 10,
    /* the last row: 1 byte, the verdict */
    RAKHUBOLE_ROW_VERDICT = 11
};

/* How many items a report has at most. */
enum { RAKHUBOLE_ITEMS_MOST = 16 };

/* The bytes of a row's body: a Number's; that of a State, Bits, Text, Digits or
 * Invalid; a Short's, which has none; and that of any other row. */
enum {
    RAKHUBOLE_NUMBER_BODY = 18,
    RAKHUBOLE_CODE_BODY = 4,
    RAKHUBOLE_SHORT_BODY = 0,
    RAKHUBOLE_OTHER_BODY = 1
};

/* Where the three parts of a Number stand in its body. The double is the whole
 * number above the line over the divisor, divided once. The fraction is as the
 * SLOT gives it, unreduced: 300/3, not 100/1. */
enum {
    /* 8 bytes: the bits of a double, never a NaN or an infinity */
    RAKHUBOLE_NUMBER_DOUBLE = 0,
    /* 8 bytes: the whole number, signed, in two's complement; its size is at
     * most 2 to the 49th */
    RAKHUBOLE_NUMBER_ABOVE = 8,
    /* 2 bytes: the divisor, 1 to 65535 */
    RAKHUBOLE_NUMBER_DIVISOR = 16
};

/* The body of an Unknown row. */
enum {
    /* an item's PRN is in neither table */
    RAKHUBOLE_UNKNOWN_PRN = 1,
    /* an item, or the remainder, behind such a PRN: its place is lost */
    RAKHUBOLE_UNKNOWN_PLACE = 2,
    /* no SLOT has the item's form, width and number */
    RAKHUBOLE_UNKNOWN_SLOT = 3,
    /* form BMM, SFP or PKT, or a width that ASC or BCD cannot have */
    RAKHUBOLE_UNKNOWN_FORM = 4,
    /* a code outside the limits of its SED SLOT */
    RAKHUBOLE_UNKNOWN_STATE = 5,
    /* an item of more than 32 bits */
    RAKHUBOLE_UNKNOWN_WIDTH = 6,
    /* the data of a kind 3 response */
    RAKHUBOLE_UNKNOWN_RESPONSE = 7,
    /* the supplement has no layout for the frame */
    RAKHUBOLE_UNKNOWN_LAYOUT = 8
};

/* The body of the verdict's row: Flagged if a line is Invalid or Short or Left
 * is not 0; otherwise Unknown if a line is Unknown; otherwise Clear. */
enum {
    RAKHUBOLE_CLEAR = 1,
    RAKHUBOLE_FLAGGED = 2,
    RAKHUBOLE_VERDICT_UNKNOWN = 3
};

/* The stream of a cable adapter: records one after the other, each a kind byte
 * and a body.
 *
 *   kind 1, frame, 14 bytes: length of the first run, length of the second,
 *     twelve bytes: the first run, the second behind it, unused ones zero
 *   kind 2, tick, 4 bytes, which are skipped
 *
 * The stream comes in parts, cut anywhere. A reader starts with a state of
 * zeros, hands each state on as it is, and feeds again the bytes that a call did
 * not take: then it is told the same frames and refusals, in the same order, as
 * if the stream had come at once. Any 24 bytes are a state:
 *
 *   bytes 0 to 7    the place of the record begun, or of the next: the bytes
 *                   before it, modulo 2 to the 64th, most significant first
 *   byte 8          not 0 if reading has stopped, after refusal 60
 *   byte 9          how many bytes of the record begun are held; more than 14
 *                   counts as 14
 *   bytes 10 to 23  these bytes; if they are not the beginning of a frame or
 *                   tick record that needs more bytes, none is held
 *
 * A state that a call writes has 0 or 1 in byte 8, at most 14 in byte 9, and
 * zeros behind the bytes held.
 */
enum {
    RAKHUBOLE_STREAM_STATE = 24,
    /* the bytes of a frame record and of a tick, kind byte and body */
    RAKHUBOLE_STREAM_FRAME_RECORD = 15,
    RAKHUBOLE_STREAM_TICK_RECORD = 5
};

/* Tells what comes first in the next part: a frame, a refusal, or neither where
 * the part holds only ticks and the beginning of a record, or reading has
 * stopped. The state is read only: rakhubole_stream_advance makes the same step.
 *
 * A frame: byte 1 of the answer is 1, byte 2 the length of the first run, byte 3
 * that of the second; the runs stand one behind the other at the start of `out`,
 * unread, and no byte of `out` beyond them is touched. They are at most twelve
 * bytes together. Refused: 60, 61, or 8 if `out` is shorter than the runs; make
 * that call again with a longer one before the state is advanced. Neither: 0.
 */
uint64_t rakhubole_stream_read(const uint8_t state[RAKHUBOLE_STREAM_STATE],
                               const uint8_t *part, size_t part_length,
                               uint8_t *out, size_t out_length);

#define RAKHUBOLE_STREAM_HAS_FRAME(answer) ((unsigned)((answer) >> 8 & 0xFF))
#define RAKHUBOLE_STREAM_FIRST(answer) ((size_t)((answer) >> 16 & 0xFF))
#define RAKHUBOLE_STREAM_SECOND(answer) ((size_t)((answer) >> 24 & 0xFF))

/* Advances the state over the bytes up to the end of the record that
 * rakhubole_stream_read tells of, or over the whole part if it tells of none;
 * over none once reading has stopped. Never refused: the whole answer is the
 * number of bytes taken. The record told of ends at the place of the state that
 * is written; an unknown kind is a record of one byte.
 */
uint64_t rakhubole_stream_advance(uint8_t state[RAKHUBOLE_STREAM_STATE],
                                  const uint8_t *part, size_t part_length);

/* The stream has ended in this state: 62 if a record is begun and reading has
 * not stopped, otherwise 0. */
uint64_t rakhubole_stream_end(const uint8_t state[RAKHUBOLE_STREAM_STATE]);

/* The whole answer is the place of the record begun, or of the next: the bytes
 * before it, modulo 2 to the 64th. */
uint64_t rakhubole_stream_place(const uint8_t state[RAKHUBOLE_STREAM_STATE]);

/* Tells and advances in one, and sets `taken` to the bytes taken. After 8 the
 * state is as it was. */
static inline uint64_t rakhubole_stream_next(uint8_t state[RAKHUBOLE_STREAM_STATE],
                                             const uint8_t *part, size_t part_length,
                                             uint8_t *out, size_t out_length, size_t *taken)
{
    uint64_t answer = rakhubole_stream_read(state, part, part_length, out, out_length);
    *taken = 0;
    if (RAKHUBOLE_REFUSAL(answer) != RAKHUBOLE_OUT_TOO_SHORT)
        *taken = (size_t)rakhubole_stream_advance(state, part, part_length);
    return answer;
}

#ifdef __cplusplus
}
#endif

#endif
