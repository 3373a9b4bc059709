/* Flips each bit of a sample of accepted frames and messages, one at a time. The
 * archive either refuses such a frame as the second program does, or gives the
 * same report as the second program; a message of ISO 9141-2 is refused with 3,
 * since a sum finds every changed byte. Anything else ends with status 1. */
#include "calls.h"
#include "format.h"
#include "judge.h"
#include "rakhubole.h"

#include <stdbool.h>
#include <stdio.h>
#include <string.h>

/* Three priorities, two forms, sixteen types. */
#define MOST_FIRST_BYTES 96
#define TARGET 0x6B
#define SOURCE 0x10
#define SELECTOR 0x41

/* A layout for each first byte of the sample that needs one of its own. */
static uint8_t supplement[MOST_FIRST_BYTES * LAYOUT_SIZE];
static size_t supplement_length;

/* By response kind. */
struct counts {
    unsigned long frames;
    unsigned long refused[2]; /* bits of the first run, of the response */
    unsigned long accepted[2];
};
static struct counts counts[4];
static unsigned long differences;

/* Of messages of ISO 9141-2. */
static struct counts message_counts;

/* By bus, then by verdict. */
static unsigned long verdicts[2][4];

/* A frame or a message; a message has no response. */
struct frame {
    bool is_message;
    uint8_t bytes[FRAME_MOST];
    size_t first_length;
    size_t length;
};

/* Two items of eight bits, so that frames of three data bytes are Clear. */
static void add_layout(uint8_t first_byte)
{
    static const uint8_t prns[] = {0x10, 0x25, 0x10, 0x0B};
    bool one_byte = first_byte & BIT_H;
    uint8_t *layout = supplement + supplement_length;
    layout[0] = RECORD_LAYOUT;
    layout[LAYOUT_FIRST_BYTE] = one_byte ? first_byte : (uint8_t)(first_byte & ~PRIORITY_BITS);
    layout[LAYOUT_TARGET] = one_byte ? 0 : TARGET;
    layout[LAYOUT_SELECTOR_LENGTH] = 1;
    layout[LAYOUT_SELECTOR] = SELECTOR;
    layout[LAYOUT_COUNT] = sizeof prns / 2;
    memcpy(layout + LAYOUT_PRN_LIST, prns, sizeof prns);
    if (RAKHUBOLE_REFUSAL(judge_calls.check(supplement, supplement_length + LAYOUT_SIZE)) == 0)
        supplement_length += LAYOUT_SIZE;
}

static struct run first_run(const struct frame *frame)
{
    return (struct run){frame->bytes, frame->first_length};
}

static struct run response_run(const struct frame *frame)
{
    return (struct run){frame->bytes + frame->first_length, frame->length - frame->first_length};
}

/* The report of a frame; its rows are put in `rows`. */
static uint64_t report_of(const struct calls *calls, const struct frame *frame, uint8_t *rows)
{
    const struct request request = {
        frame->is_message ? CALL_ISO_REPORT : CALL_REPORT,
        {{supplement, supplement_length}, first_run(frame), response_run(frame)},
        rows, RAKHUBOLE_ROWS_MOST,
    };
    memset(rows, 0xA5, RAKHUBOLE_ROWS_MOST);
    return answer_of(calls, &request);
}

/* The answer of both, or of the archive after a difference was shown. */
static uint64_t compared_report(const struct frame *frame, uint8_t *rows)
{
    uint8_t judged[RAKHUBOLE_ROWS_MOST];
    uint64_t answer = report_of(&archive_calls, frame, rows);
    uint64_t expected = report_of(&judge_calls, frame, judged);
    if (answer == expected && memcmp(rows, judged, RAKHUBOLE_ROWS_MOST) == 0)
        return answer;
    differences++;
    printf("the archive answers %016llX, the second program %016llX:",
           (unsigned long long)answer, (unsigned long long)expected);
    for (size_t i = 0; i < frame->length; i++)
        printf("%s%02X", i == frame->first_length ? " / " : " ", frame->bytes[i]);
    printf("\n");
    return answer;
}

/* Whether the refusal is one that a flipped bit may have. */
static bool is_found(const struct frame *frame, unsigned refusal)
{
    return frame->is_message ? refusal == RAKHUBOLE_CHECK_BYTE_WRONG : refusal != 0;
}

static void flip_each_bit(const struct frame *frame, struct counts *count)
{
    uint8_t rows[RAKHUBOLE_ROWS_MOST];
    for (size_t bit = 0; bit < 8 * frame->length; bit++) {
        struct frame damaged = *frame;
        damaged.bytes[bit / 8] ^= (uint8_t)(1 << bit % 8);
        bool in_response = bit / 8 >= frame->first_length;
        if (is_found(frame, RAKHUBOLE_REFUSAL(compared_report(&damaged, rows))))
            count->refused[in_response]++;
        else
            count->accepted[in_response]++;
    }
}

/* Writes a frame or message of these lengths; false if there is none. */
static bool write_frame(uint8_t first_byte, size_t data_length, size_t response_length,
                        struct frame *frame)
{
    static uint32_t noise = 1;
    uint8_t header[] = {first_byte, TARGET, SOURCE}, data[FRAME_MOST], response[FRAME_MOST];
    const struct request request = {
        frame->is_message ? CALL_ISO_WRITE : CALL_WRITE,
        {{header, first_byte & BIT_H ? 1 : 3}, {data, data_length}, {response, response_length}},
        frame->bytes, FRAME_MOST,
    };
    for (size_t i = 0; i < FRAME_MOST; i++) {
        noise = noise * 1664525 + 1013904223;
        data[i] = i == 0 ? SELECTOR : (uint8_t)(noise >> 24);
        response[i] = (uint8_t)(noise >> 16);
    }
    uint64_t written = answer_of(&judge_calls, &request);
    frame->first_length = RAKHUBOLE_WRITE_FIRST(written);
    frame->length = frame->first_length + RAKHUBOLE_WRITE_RESPONSE(written);
    return RAKHUBOLE_REFUSAL(written) == 0;
}

static struct counts *counts_of(const struct frame *frame)
{
    const struct request request = {CALL_READ, {first_run(frame), response_run(frame)}, NULL, 0};
    if (frame->is_message)
        return &message_counts;
    return &counts[RAKHUBOLE_READ_KIND(answer_of(&judge_calls, &request))];
}

/* Tries a frame or message of these lengths, if there is one. */
static void try_frame(bool is_message, uint8_t first_byte, size_t data_length,
                      size_t response_length)
{
    uint8_t rows[RAKHUBOLE_ROWS_MOST];
    struct frame frame = {.is_message = is_message};
    if (!write_frame(first_byte, data_length, response_length, &frame))
        return;
    uint64_t answer = compared_report(&frame, rows);
    struct counts *count = counts_of(&frame);
    count->frames++;
    verdicts[is_message][rows[RAKHUBOLE_ROWS_LENGTH(answer) - 1] & 3]++;
    flip_each_bit(&frame, count);
}

/* Whether the sample has all of them. */
static bool show_verdicts(const char *sample, const unsigned long by_verdict[4])
{
    printf("bit errors, verdicts of %s: Clear %lu, Flagged %lu, Unknown %lu\n", sample,
           by_verdict[RAKHUBOLE_CLEAR], by_verdict[RAKHUBOLE_FLAGGED],
           by_verdict[RAKHUBOLE_VERDICT_UNKNOWN]);
    return by_verdict[RAKHUBOLE_CLEAR] && by_verdict[RAKHUBOLE_FLAGGED] &&
           by_verdict[RAKHUBOLE_VERDICT_UNKNOWN];
}

/* Whether each sample has something and nothing differs. */
static bool show_counts(void)
{
    const struct counts *m = &message_counts;
    bool all = m->frames && m->accepted[0] == 0 && differences == 0;
    for (int kind = 0; kind < 4; kind++) {
        const struct counts *c = &counts[kind];
        printf("bit errors, response kind %d: %lu frames; bits of the first run: %lu refused, %lu "
               "accepted with the judge's report; of the response: %lu refused, %lu accepted with "
               "the judge's report\n",
               kind, c->frames, c->refused[0], c->accepted[0], c->refused[1], c->accepted[1]);
        all = all && c->frames;
    }
    printf("bit errors, ISO 9141-2: %lu messages; bits: %lu refused with 3, %lu not\n",
           m->frames, m->refused[0], m->accepted[0]);
    all = show_verdicts("the frames", verdicts[false]) && all;
    all = show_verdicts("the messages", verdicts[true]) && all;
    printf("bit errors: %lu differ\n", differences);
    return all;
}

int main(void)
{
    static const uint8_t priorities[] = {0x00, 0x40, 0xA0};
    uint8_t first_bytes[MOST_FIRST_BYTES];
    size_t count = 0;
    for (size_t i = 0; i < sizeof priorities; i++)
        for (uint8_t form_and_type = 0; form_and_type < 0x20; form_and_type++)
            first_bytes[count++] = priorities[i] | form_and_type;
    for (size_t i = 0; i < count; i++)
        add_layout(first_bytes[i]);
    for (size_t i = 0; i < count; i++)
        for (size_t data = 0; data < FRAME_MOST; data++)
            for (size_t response = 0; response < FRAME_MOST; response++)
                try_frame(false, first_bytes[i], data, response);
    for (size_t i = 0; i < count; i++)
        for (size_t data = 0; data < FRAME_MOST; data++)
            try_frame(true, first_bytes[i], data, 0);
    return show_counts() ? 0 : 1;
}
