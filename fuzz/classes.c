#include "classes.h"

#include "decoder_parts.h"
#include "decoder_stream.h"
#include "draft.h"
#include "format.h"
#include "judge.h"
#include "rakhubole.h"

#include <stdio.h>

/* Behind Unknown: of a report's room, of its Numbers, of the selector under which it
 * found a layout; then of a stream. */
enum word {
    REFUSED,
    SUM_BEFORE,
    KIND,
    VERDICT,
    ROW,
    UNKNOWN,
    ROOM_LEFT,
    ROOM_SHORT,
    WHOLE_UNDER,
    WHOLE_BITS_OVER,
    DIVISOR,
    DIVISOR_OVER,
    END_OF_FIELD,
    SELECTOR,
    SELECTOR_SHORT,
    FRAMES_TOLD,
    TOLD_WITHIN,
    STATE,
    PLACE_BACK,
    WORDS
};
static const char *const words[WORDS] = {
    "refused", "3 before", "kind", "verdict", "row", "Unknown", "room left", "room short by",
    "whole number under", "its bits over", "divisor", "divisor over", "end of a field",
    "selector of", "selector short by", "frames told", "told from within a record", "state",
    "place back at",
};

/* The ends of a Number's fields. The least whole number is that of an SNM, the
 * most that of a UNM, both of 32 bits with the largest multiplier and offset. */
enum { LEAST_WHOLE = 1, MOST_WHOLE, MOST_DIVISOR };
#define LEAST_WHOLE_SIZE (UINT64_C(0xFFFF) * 0x80000000u + 0x80000000u)
#define MOST_WHOLE_SIZE (UINT64_C(0xFFFF) * 0xFFFFFFFFu + 0x7FFFFFFFu)

/* States; no call makes the last five. */
enum {
    BETWEEN_RECORDS = 1,
    WITHIN_RECORD,
    STOPPED,
    STOPPED_WITHIN_RECORD,
    STOPPED_OVER_ONE,
    COUNT_OVER_MOST,
    HELD_NO_BEGINNING,
    NOT_ZERO_BEHIND_HELD
};

/* Every refusal, kind and reason is below this. */
#define NUMBERS 64
#define ONE(number) (UINT64_C(1) << (number))
/* A bit for each number from one to the other. */
#define SPAN(low, high) (2 * ONE(high) - ONE(low))
#define COUNT_REFUSALS SPAN(RAKHUBOLE_RESPONSE_FORBIDDEN, RAKHUBOLE_RESPONSE_TOO_MANY)
#define FRAME_REFUSALS                                                                           \
    (SPAN(RAKHUBOLE_OVER_TWELVE_BYTES, RAKHUBOLE_TYPE_UNASSIGNED) | COUNT_REFUSALS |             \
     ONE(RAKHUBOLE_RESPONSE_CHECK_BYTE_WRONG))
/* A writer is given responses without check bytes, none of which has too few. */
#define WRITE_REFUSALS                                                                           \
    (ONE(RAKHUBOLE_OVER_TWELVE_BYTES) | ONE(RAKHUBOLE_TYPE_UNASSIGNED) |                         \
     (COUNT_REFUSALS & ~ONE(RAKHUBOLE_RESPONSE_TOO_FEW)) |                                       \
     SPAN(RAKHUBOLE_HEADER_LENGTH_WRONG, RAKHUBOLE_OUT_TOO_SHORT))
#define MESSAGE_REFUSALS                                                                         \
    (SPAN(RAKHUBOLE_OVER_TWELVE_BYTES, RAKHUBOLE_CHECK_BYTE_WRONG) |                             \
     ONE(RAKHUBOLE_FIRST_BYTE_WRONG))
#define MESSAGE_WRITE_REFUSALS                                                                   \
    (ONE(RAKHUBOLE_OVER_TWELVE_BYTES) |                                                          \
     SPAN(RAKHUBOLE_HEADER_LENGTH_WRONG, RAKHUBOLE_FIRST_BYTE_WRONG))
#define SUPPLEMENT_REFUSALS SPAN(RAKHUBOLE_SUPPLEMENT_TOO_LONG, RAKHUBOLE_KEY_IN_SAE)
#define REPORT_REFUSALS (SUPPLEMENT_REFUSALS | ONE(RAKHUBOLE_OUT_TOO_SHORT))
#define VERDICTS SPAN(RAKHUBOLE_CLEAR, RAKHUBOLE_VERDICT_UNKNOWN)
#define ROWS SPAN(RAKHUBOLE_ROW_NUMBER, RAKHUBOLE_ROW_ANSWERED)
#define UNKNOWNS SPAN(RAKHUBOLE_UNKNOWN_PRN, RAKHUBOLE_UNKNOWN_LAYOUT)
/* A whole number of more bits than this would be cut by a caller that keeps it
 * in a word of so many. */
#define WORD_BITS 32
/* Just enough room and one byte less; Numbers of each sign, size and divisor;
 * layouts for selectors of each length, and for those that the data cut short. */
#define OF_REPORT                                                                                \
    [ROOM_LEFT] = ONE(0), [ROOM_SHORT] = ONE(1), [WHOLE_UNDER] = ONE(0),                         \
    [WHOLE_BITS_OVER] = ONE(WORD_BITS), [DIVISOR] = ONE(1), [DIVISOR_OVER] = ONE(1),             \
    [END_OF_FIELD] = SPAN(LEAST_WHOLE, MOST_DIVISOR), [SELECTOR] = SPAN(0, SELECTOR_MOST),       \
    [SELECTOR_SHORT] = SPAN(1, SELECTOR_MOST)

#define STATES SPAN(BETWEEN_RECORDS, NOT_ZERO_BEHIND_HELD)
/* What a record gives that was begun in an earlier part: a frame, or 61. */
#define WITHIN_FRAME 1
#define READ_STREAM                                                                              \
    [REFUSED] = SPAN(RAKHUBOLE_STREAM_KIND_UNKNOWN, RAKHUBOLE_STREAM_RECORD_WRONG) |             \
                ONE(RAKHUBOLE_OUT_TOO_SHORT),                                                    \
    [FRAMES_TOLD] = SPAN(0, 1), [ROOM_LEFT] = ONE(0), [ROOM_SHORT] = ONE(1),                     \
    [TOLD_WITHIN] = ONE(WITHIN_FRAME) | ONE(RAKHUBOLE_STREAM_RECORD_WRONG)

/* The numbers that the inputs of a call must reach. */
static const uint64_t wanted[][WORDS] = {
    [CALL_READ] = {[REFUSED] = FRAME_REFUSALS, [KIND] = SPAN(0, 3)},
    [CALL_WRITE] = {[REFUSED] = WRITE_REFUSALS},
    [CALL_CHECK] = {[REFUSED] = SUPPLEMENT_REFUSALS},
    [CALL_REPORT] = {[REFUSED] = FRAME_REFUSALS | REPORT_REFUSALS,
                     [VERDICT] = VERDICTS,
                     [ROW] = ROWS,
                     [UNKNOWN] = UNKNOWNS,
                     OF_REPORT},
    [CALL_ISO_READ] = {[REFUSED] = MESSAGE_REFUSALS,
                       [SUM_BEFORE] = ONE(RAKHUBOLE_FIRST_BYTE_WRONG)},
    [CALL_ISO_WRITE] = {[REFUSED] = MESSAGE_WRITE_REFUSALS},
    [CALL_ISO_REPORT] = {[REFUSED] = MESSAGE_REFUSALS | REPORT_REFUSALS,
                         [SUM_BEFORE] = ONE(RAKHUBOLE_FIRST_BYTE_WRONG),
                         [VERDICT] = VERDICTS,
                         [ROW] = ROWS,
                         [UNKNOWN] = UNKNOWNS & ~ONE(RAKHUBOLE_UNKNOWN_RESPONSE),
                         OF_REPORT},
    [CALL_STREAM_READ] = {READ_STREAM, [STATE] = STATES},
    [CALL_STREAM_ADVANCE] = {[STATE] = STATES, [PLACE_BACK] = ONE(0)},
    [CALL_STREAM_END] = {[REFUSED] = ONE(RAKHUBOLE_STREAM_CUT), [STATE] = STATES},
    [CALL_STREAM_PLACE] = {[STATE] = STATES},
};

struct tally {
    unsigned long inputs, accepted, null_runs;
    unsigned long counts[WORDS][NUMBERS];
};
static struct tally tallies[CALLS];

size_t body_size(uint8_t kind)
{
    if (kind == RAKHUBOLE_ROW_NUMBER)
        return RAKHUBOLE_NUMBER_BODY;
    if (kind == RAKHUBOLE_ROW_SHORT)
        return RAKHUBOLE_SHORT_BODY;
    return kind <= RAKHUBOLE_ROW_INVALID ? RAKHUBOLE_CODE_BODY : RAKHUBOLE_OTHER_BODY;
}

static uint64_t number_of(const uint8_t *bytes, const uint8_t *end)
{
    uint64_t number = 0;
    while (bytes < end)
        number = number << 8 | *bytes++;
    return number;
}

struct fraction fraction_of(const uint8_t *body)
{
    const uint8_t *divisor = body + RAKHUBOLE_NUMBER_DIVISOR;
    uint64_t above = number_of(body + RAKHUBOLE_NUMBER_ABOVE, divisor);
    bool is_negative = above >> 63;
    return (struct fraction){
        is_negative, is_negative ? 0 - above : above,
        (uint16_t)number_of(divisor, body + RAKHUBOLE_NUMBER_BODY),
    };
}

/* In branches, so that libFuzzer keeps an input for each. */
static void count_number(struct tally *tally, struct fraction fraction)
{
    if (fraction.is_negative)
        tally->counts[WHOLE_UNDER][0]++;
    if (fraction.size >> WORD_BITS)
        tally->counts[WHOLE_BITS_OVER][WORD_BITS]++;
    if (fraction.divisor == 1)
        tally->counts[DIVISOR][1]++;
    else
        tally->counts[DIVISOR_OVER][1]++;
    if (fraction.is_negative && fraction.size == LEAST_WHOLE_SIZE)
        tally->counts[END_OF_FIELD][LEAST_WHOLE]++;
    if (!fraction.is_negative && fraction.size == MOST_WHOLE_SIZE)
        tally->counts[END_OF_FIELD][MOST_WHOLE]++;
    if (fraction.divisor == UINT16_MAX)
        tally->counts[END_OF_FIELD][MOST_DIVISOR]++;
}

static void count_rows(struct tally *tally, const uint8_t *out, size_t length)
{
    for (size_t at = 0; at < length; at += 1 + body_size(out[at])) {
        if (out[at] == RAKHUBOLE_ROW_VERDICT)
            tally->counts[VERDICT][out[at + 1]]++;
        else
            tally->counts[ROW][out[at]]++;
        if (out[at] == RAKHUBOLE_ROW_UNKNOWN)
            tally->counts[UNKNOWN][out[at + 1]]++;
        if (out[at] == RAKHUBOLE_ROW_NUMBER)
            count_number(tally, fraction_of(out + at + 1));
    }
}

/* A report, or the frame of a stream, that one byte more would have had room for. */
static bool is_one_short(const struct request *request, unsigned refusal)
{
    uint8_t rows[RAKHUBOLE_ROWS_MOST];
    struct request longer = *request;
    if (refusal != RAKHUBOLE_OUT_TOO_SHORT || is_write(request->call))
        return false;
    longer.out = rows;
    longer.out_length++;
    return RAKHUBOLE_REFUSAL(answer_of(&judge_calls, &longer)) == 0;
}

struct selector selector_of(const struct request *request)
{
    const struct run *first = &request->in[1], *response = &request->in[2];
    struct supplement supplement = {request->in[0].bytes, request->in[0].length};
    struct frame frame;
    if (request->call == CALL_REPORT)
        read_frame(first->bytes, first->length, response->bytes, response->length, &frame);
    else
        read_message(first->bytes, first->length, &frame);
    size_t length = selector_length(&supplement, &frame);
    bool has_layout = find_layout(&supplement, &frame, length) != NULL;
    frame.data_length = SELECTOR_MOST;
    return (struct selector){length, selector_length(&supplement, &frame), has_layout};
}

/* In branches too; the length is the one that was asked for, or short of it. */
static void count_selector(struct tally *tally, struct selector selector)
{
    size_t missing = selector.asked - selector.length;
    if (missing == 0 && selector.length == 0)
        tally->counts[SELECTOR][0]++;
    if (missing == 0 && selector.length == 1)
        tally->counts[SELECTOR][1]++;
    if (missing == 0 && selector.length == 2)
        tally->counts[SELECTOR][2]++;
    if (missing == 1)
        tally->counts[SELECTOR_SHORT][1]++;
    if (missing == 2)
        tally->counts[SELECTOR_SHORT][2]++;
}

static void count_report(struct tally *tally, const struct request *request, uint64_t answer,
                         const uint8_t *out)
{
    size_t length = RAKHUBOLE_ROWS_LENGTH(answer);
    struct selector selector = selector_of(request);
    if (length == request->out_length)
        tally->counts[ROOM_LEFT][0]++;
    if (selector.has_layout)
        count_selector(tally, selector);
    count_rows(tally, out, length);
}

/* Whether the state holds the beginning of a record. */
static bool is_within_record(const uint8_t *state)
{
    size_t count = state[STATE_COUNT] < STATE_HELD_MOST ? state[STATE_COUNT] : STATE_HELD_MOST;
    return count > 0 && count < stream_record_size(state[STATE_HELD]);
}

static bool is_zero_behind_held(const uint8_t *state)
{
    for (size_t i = STATE_HELD + (size_t)state[STATE_COUNT]; i < RAKHUBOLE_STREAM_STATE; i++)
        if (state[i] != 0)
            return false;
    return true;
}

/* In branches too, each with a condition of its own: an if and its else may be
 * compiled to one. */
static void count_state(unsigned long *counts, const uint8_t *state)
{
    uint8_t stopped = state[STATE_STOPPED], count = state[STATE_COUNT];
    bool is_within = is_within_record(state);
    if (stopped == 0 && count == 0)
        counts[BETWEEN_RECORDS]++;
    if (stopped == 0 && is_within)
        counts[WITHIN_RECORD]++;
    if (stopped == 1 && count == 0)
        counts[STOPPED]++;
    if (stopped != 0 && is_within)
        counts[STOPPED_WITHIN_RECORD]++;
    if (stopped > 1)
        counts[STOPPED_OVER_ONE]++;
    if (count > STATE_HELD_MOST)
        counts[COUNT_OVER_MOST]++;
    if (count > 0 && !is_within)
        counts[HELD_NO_BEGINNING]++;
    if (!is_zero_behind_held(state))
        counts[NOT_ZERO_BEHIND_HELD]++;
}

static void count_told(struct tally *tally, const struct request *request, uint64_t answer)
{
    size_t length = RAKHUBOLE_STREAM_FIRST(answer) + RAKHUBOLE_STREAM_SECOND(answer);
    bool has_frame = RAKHUBOLE_STREAM_HAS_FRAME(answer);
    if (has_frame)
        tally->counts[FRAMES_TOLD][1]++;
    else if (answer == 0)
        tally->counts[FRAMES_TOLD][0]++;
    if (has_frame && length == request->out_length)
        tally->counts[ROOM_LEFT][0]++;
    if (!is_within_record(request->in[0].bytes))
        return;
    if (has_frame)
        tally->counts[TOLD_WITHIN][WITHIN_FRAME]++;
    if (answer == RAKHUBOLE_STREAM_RECORD_WRONG)
        tally->counts[TOLD_WITHIN][RAKHUBOLE_STREAM_RECORD_WRONG]++;
}

static void count_stream(struct tally *tally, const struct request *request, uint64_t answer,
                         const uint8_t *out)
{
    const uint8_t *state = request->in[0].bytes;
    count_state(tally->counts[STATE], state);
    if (request->call == CALL_STREAM_READ)
        count_told(tally, request, answer);
    if (request->call == CALL_STREAM_ADVANCE &&
        number_of(out, out + STATE_STOPPED) < number_of(state, state + STATE_STOPPED))
        tally->counts[PLACE_BACK][0]++;
}

/* A message with a wrong sum whose first byte would be refused too. It is a
 * branch of its own, so that libFuzzer keeps an input in which the order of both
 * tests shows. */
static bool is_sum_first(const struct request *request, unsigned refusal)
{
    enum call call = request->call;
    if (refusal != RAKHUBOLE_CHECK_BYTE_WRONG || (call != CALL_ISO_READ && call != CALL_ISO_REPORT))
        return false;
    const struct run *message = &request->in[runs_of(call) - 1];
    return message->bytes[0] != fitting_first_byte(message->bytes[0]);
}

void count_classes(const struct request *request, uint64_t answer, const uint8_t *out)
{
    struct tally *tally = &tallies[request->call];
    tally->inputs++;
    for (size_t i = 0; i < runs_of(request->call); i++)
        tally->null_runs += request->in[i].length == 0;
    unsigned refusal = refusal_of(request->call, answer);
    if (request->call >= CALL_STREAM_READ)
        count_stream(tally, request, answer, out);
    if (is_sum_first(request, refusal))
        tally->counts[SUM_BEFORE][RAKHUBOLE_FIRST_BYTE_WRONG]++;
    if (is_one_short(request, refusal))
        tally->counts[ROOM_SHORT][1]++;
    if (refusal != 0) {
        tally->counts[REFUSED][refusal]++;
        return;
    }
    tally->accepted++;
    if (request->call == CALL_READ)
        tally->counts[KIND][RAKHUBOLE_READ_KIND(answer)]++;
    if (is_report(request->call))
        count_report(tally, request, answer, out);
}

bool show_classes(enum call call)
{
    const struct tally *tally = &tallies[call];
    /* A state is no empty run. */
    bool has_other_runs = call != CALL_STREAM_END && call != CALL_STREAM_PLACE;
    bool all = tally->accepted > 0 && (tally->null_runs > 0 || !has_other_runs);
    printf("%s: %lu inputs; accepted: %lu, with an empty run: %lu", call_names[call],
           tally->inputs, tally->accepted, tally->null_runs);
    for (int word = 0; word < WORDS; word++) {
        for (int number = 0; number < NUMBERS; number++) {
            if (!(wanted[call][word] >> number & 1))
                continue;
            printf(", %s %d: %lu", words[word], number, tally->counts[word][number]);
            all = all && tally->counts[word][number] > 0;
        }
    }
    printf("\n%s", all ? "" : "a class has no input\n");
    return all;
}
