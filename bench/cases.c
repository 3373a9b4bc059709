#include "cases.h"

#include "format.h"
#include "rakhubole.h"
#include "streams.h"

#include <string.h>

/* Items of eight bits that a frame of twelve bytes holds behind its selector. */
#define ITEMS 7

struct supplement {
    uint8_t bytes[SUPPLEMENT_MOST];
    size_t length;
};

static uint8_t output[RAKHUBOLE_ROWS_MOST];

/* First byte and target as records have them, and both selectors, with a zero for
 * a byte that is not used. */
#define HEADER 0x086B
#define MODE 0x4100
#define MODE_AND_PID 0x410C
static const uint16_t two_prns[] = {0x1025, 0x100B};

/* Header 48 6B 10, selector 41, of one 41 0C. The first byte has H = 0 and K = 1, as
 * ISO 9141-2 asks, so that the messages differ from the frames in the check byte
 * alone. These are not computed: a call that made them would count as one of the
 * case. */
#define TWO_ITEMS 0x48, 0x6B, 0x10, 0x41, 0x65, 0x80
#define SEVEN_ITEMS 0x48, 0x6B, 0x10, 0x41, 1, 2, 3, 4, 5, 6, 7
static const uint8_t short_frame[] = {TWO_ITEMS, 0x29}, short_message[] = {TWO_ITEMS, 0xE9};
static const uint8_t answer_frame[] = {0x48, 0x6B, 0x10, 0x41, 0x0C, 0x65, 0x80, 0x8B};
static const uint8_t full_frame[] = {SEVEN_ITEMS, 0xA7}, full_message[] = {SEVEN_ITEMS, 0x20};

static void put(struct supplement *supplement, uint32_t number, size_t bytes)
{
    for (size_t i = bytes; i > 0; i--)
        supplement->bytes[supplement->length++] = (uint8_t)(number >> 8 * (i - 1));
}

/* The layout of frames with that selector. */
static void put_layout(struct supplement *supplement, uint8_t selector_length, uint16_t selector,
                       const uint16_t *prns, size_t count)
{
    put(supplement, RECORD_LAYOUT, 1);
    put(supplement, HEADER, 2);
    put(supplement, selector_length, 1);
    put(supplement, selector, 2);
    put(supplement, (uint32_t)count, 1);
    for (size_t i = 0; i < LAYOUT_PRNS; i++)
        put(supplement, i < count ? prns[i] : 0, 2);
}

static void put_selector(struct supplement *supplement, uint8_t length)
{
    put(supplement, RECORD_SELECTOR, 1);
    put(supplement, HEADER, 2);
    put(supplement, length, 1);
}

static void put_prn(struct supplement *supplement, uint16_t prn, uint8_t form, uint8_t width,
                    uint16_t slot)
{
    put(supplement, RECORD_PRN, 1);
    put(supplement, prn, 2);
    put(supplement, form, 1);
    put(supplement, width, 1);
    put(supplement, slot, 2);
}

/* N / 2 - 40, from 0 to 255. */
static void put_slot(struct supplement *supplement, uint8_t form, uint8_t width, uint16_t number)
{
    put(supplement, RECORD_SLOT, 1);
    put(supplement, form, 1);
    put(supplement, width, 1);
    put(supplement, number, 2);
    put(supplement, 0x00010002, 4);
    put(supplement, (uint32_t)-80, 4);
    put(supplement, 0, 4);
    put(supplement, 255, 4);
}

static struct run one_layout(void)
{
    static struct supplement supplement;
    put_layout(&supplement, 1, MODE, two_prns, 2);
    return (struct run){supplement.bytes, supplement.length};
}

/* The layout of answers of J1979, selected by test mode and PID. */
static struct run mode_and_pid(void)
{
    static struct supplement supplement;
    put_selector(&supplement, 2);
    put_layout(&supplement, 2, MODE_AND_PID, two_prns, 2);
    return (struct run){supplement.bytes, supplement.length};
}

/* The place of the i-th of `ITEMS` records that lie evenly among `count`. */
static size_t item_place(size_t i, size_t count)
{
    return (i + 1) * count / ITEMS - 1;
}

/* PRNs from all over the range, but for those of SAE, each with an SAE SLOT of
 * eight bits; then the layout that names seven of them. */
static struct run prn_records(struct supplement *supplement, size_t count)
{
    uint16_t prns[ITEMS], prn = 0;
    while (supplement->length < count * PRN_SIZE) {
        prn = (uint16_t)(prn + 40503);
        size_t before = supplement->length;
        put_prn(supplement, prn, FORM_UNM, 8, 101);
        if (decoder_calls.check(supplement->bytes + before, PRN_SIZE) != 0)
            supplement->length = before;
    }
    for (size_t i = 0; i < ITEMS; i++) {
        const uint8_t *record = supplement->bytes + PRN_SIZE * item_place(i, count);
        prns[i] = (uint16_t)(record[PRN_NUMBER] << 8 | record[PRN_NUMBER + 1]);
    }
    put_layout(supplement, 1, MODE, prns, ITEMS);
    return (struct run){supplement->bytes, supplement->length};
}

/* SLOTs of four widths, numbered from 1,000 on, as document 003 leaves it to
 * makers; seven PRNs that use one of eight bits each; the layout that names
 * those. */
static struct run slot_records(struct supplement *supplement, size_t count)
{
    uint16_t prns[ITEMS];
    for (size_t i = 0; i < count; i++)
        put_slot(supplement, FORM_UNM, (uint8_t)(8 + 8 * (i % 4)),
                 (uint16_t)(1000 + i * 5003 % 4096));
    for (size_t i = 0; i < ITEMS; i++) {
        size_t place = item_place(i, count) / 4 * 4;
        prns[i] = (uint16_t)(0x4000 + i);
        put_prn(supplement, prns[i], FORM_UNM, 8, (uint16_t)(1000 + place * 5003 % 4096));
    }
    put_layout(supplement, 1, MODE, prns, ITEMS);
    return (struct run){supplement->bytes, supplement->length};
}

static struct request with_output(enum call call, struct run one, struct run other)
{
    return (struct request){call, {one, other, {NULL, 0}}, output, sizeof output};
}

static struct request report(struct run supplement, struct run first)
{
    return with_output(CALL_REPORT, supplement, first);
}

/* The parts of a frame or message to be written: all but its check byte. The
 * header is of three bytes on both buses. */
static struct request writing(enum call call, const uint8_t *frame, size_t length)
{
    struct run header = {frame, MESSAGE_HEADER};
    struct run data = {frame + MESSAGE_HEADER, length - MESSAGE_LEAST};
    return with_output(call, header, data);
}

static struct request first_step(size_t part_length)
{
    static const uint8_t fresh[RAKHUBOLE_STREAM_STATE];
    struct run part = {bench_stream().bytes, part_length};
    return stream_request(CALL_STREAM_READ, fresh, part, output, FRAME_MOST);
}

const struct bench_case *bench_cases(void)
{
    static struct supplement small, full_of_prns, full_of_slots;
    static struct bench_case cases[CASE_COUNT];
    if (cases[0].name)
        return cases;
    struct run two_items = {short_frame, sizeof short_frame};
    struct run answer = {answer_frame, sizeof answer_frame};
    struct run seven_items = {full_frame, sizeof full_frame};
    struct run iso_two_items = {short_message, sizeof short_message};
    struct run iso_seven_items = {full_message, sizeof full_message};
    struct run layout = one_layout();
    const struct bench_case made[CASE_COUNT] = {
        {"report, one layout", report(layout, two_items), 1.0},
        {"report, selector of 2 bytes", report(mode_and_pid(), answer), 1.0},
        {"report, 100 PRN records", report(prn_records(&small, 100), seven_items), 1.0},
        {"report, 2,300 PRN records", report(prn_records(&full_of_prns, 2300), seven_items), 0.1},
        {"report, 770 SLOT records", report(slot_records(&full_of_slots, 770), seven_items), 0.1},
        {"read", {.call = CALL_READ, .in = {seven_items}}, 0},
        {"write", writing(CALL_WRITE, full_frame, sizeof full_frame), 0},
        {"ISO report, one layout", with_output(CALL_ISO_REPORT, layout, iso_two_items), 0},
        {"ISO read", {.call = CALL_ISO_READ, .in = {iso_seven_items}}, 0},
        {"ISO write", writing(CALL_ISO_WRITE, full_message, sizeof full_message), 0},
        {"stream, 4 KiB at a time", first_step(4096), 4.0},
        {"stream, 16 bytes at a time", first_step(16), 4.0},
        {"stream, 1 byte at a time", first_step(1), 4.0},
    };
    memcpy(cases, made, sizeof made);
    return cases;
}
