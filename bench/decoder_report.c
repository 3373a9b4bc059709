#include "decoder.h"
#include "decoder_parts.h"

#include "rakhubole.h"

#include <string.h>

struct report {
    const struct supplement *supplement;
    const uint8_t *data; /* after the selector */
    size_t bits;
    size_t place;
    bool lost;
    bool is_short;
    bool flagged;
    bool unknown;
    size_t length;
    uint8_t rows[RAKHUBOLE_ROWS_MOST];
};

static void put_bytes(struct report *report, uint64_t number, size_t count)
{
    for (size_t i = count; i > 0; i--)
        report->rows[report->length++] = (uint8_t)(number >> 8 * (i - 1));
}

static void put_row(struct report *report, uint8_t kind, uint64_t body, size_t body_length)
{
    report->rows[report->length++] = kind;
    put_bytes(report, body, body_length);
}

static void put_code(struct report *report, uint8_t kind, uint32_t code)
{
    put_row(report, kind, code, RAKHUBOLE_CODE_BODY);
    if (kind == RAKHUBOLE_ROW_INVALID)
        report->flagged = true;
}

static void put_unknown(struct report *report, uint8_t number)
{
    put_row(report, RAKHUBOLE_ROW_UNKNOWN, number, RAKHUBOLE_OTHER_BODY);
    report->unknown = true;
}

static void put_short(struct report *report)
{
    put_row(report, RAKHUBOLE_ROW_SHORT, 0, RAKHUBOLE_SHORT_BODY);
    report->flagged = true;
}

/* The double, the whole number above the line in two's complement, the divisor:
 * each as long as the header has it up to the next. */
static void put_number(struct report *report, const struct slot_row *slot, int64_t number)
{
    int64_t above = number * slot->multiplier + slot->offset;
    double value = (double)above / (double)slot->divisor;
    uint64_t bits;
    memcpy(&bits, &value, sizeof bits);
    put_row(report, RAKHUBOLE_ROW_NUMBER, bits, RAKHUBOLE_NUMBER_ABOVE);
    put_bytes(report, (uint64_t)above, RAKHUBOLE_NUMBER_DIVISOR - RAKHUBOLE_NUMBER_ABOVE);
    put_bytes(report, slot->divisor, RAKHUBOLE_NUMBER_BODY - RAKHUBOLE_NUMBER_DIVISOR);
}

/* The bits from a place on, at most 32 of them, zeros before them. */
static uint32_t cut_bits(const uint8_t *data, size_t place, unsigned width)
{
    size_t last = place + width - 1;
    uint64_t window = 0;
    for (size_t i = place / 8; i <= last / 8; i++)
        window = window << 8 | data[i];
    window >>= 7 - last % 8;
    return (uint32_t)(window & ((1ULL << width) - 1));
}

static int64_t sign_extended(uint32_t raw, unsigned width)
{
    int64_t half = (int64_t)1 << (width - 1);
    return raw < half ? (int64_t)raw : (int64_t)raw - 2 * half;
}

/* Whether each piece of that size lies between the two numbers. */
static bool pieces_fit(uint32_t raw, unsigned width, unsigned size, uint32_t low, uint32_t high)
{
    for (unsigned at = 0; at < width; at += size) {
        uint32_t piece = raw >> at & ((1u << size) - 1);
        if (piece < low || piece > high)
            return false;
    }
    return true;
}

static void put_signed_item(struct report *report, const struct slot_row *slot, uint32_t raw)
{
    int64_t number = sign_extended(raw, slot->width);
    if (number < as_signed(slot->lowest) || number > as_signed(slot->highest))
        put_code(report, RAKHUBOLE_ROW_INVALID, raw);
    else
        put_number(report, slot, number);
}

/* Text or digits: pieces of that size, each between low and high. */
static void put_pieces(struct report *report, uint8_t kind, const struct slot_row *slot,
                       uint32_t raw, unsigned size, uint32_t low, uint32_t high)
{
    if (slot->width % size != 0)
        put_unknown(report, RAKHUBOLE_UNKNOWN_FORM);
    else if (!pieces_fit(raw, slot->width, size, low, high))
        put_code(report, RAKHUBOLE_ROW_INVALID, raw);
    else
        put_code(report, kind, raw);
}

static void put_item(struct report *report, const struct slot_row *slot, uint32_t raw)
{
    bool inside = raw >= slot->lowest && raw <= slot->highest;
    switch (slot->form) {
    case FORM_UNM:
        if (inside)
            put_number(report, slot, raw);
        else
            put_code(report, RAKHUBOLE_ROW_INVALID, raw);
        break;
    case FORM_SNM: put_signed_item(report, slot, raw); break;
    case FORM_SED:
        if (inside)
            put_code(report, RAKHUBOLE_ROW_STATE, raw);
        else
            put_unknown(report, RAKHUBOLE_UNKNOWN_STATE);
        break;
    case FORM_BMP: put_code(report, RAKHUBOLE_ROW_BITS, raw); break;
    case FORM_ASC: put_pieces(report, RAKHUBOLE_ROW_TEXT, slot, raw, 8, 0x20, 0x7E); break;
    default: put_pieces(report, RAKHUBOLE_ROW_DIGITS, slot, raw, 4, 0, 9); break;
    }
}

static void report_item(struct report *report, uint16_t prn)
{
    struct prn_row row;
    struct slot_row slot;
    if (report->lost) {
        put_unknown(report, RAKHUBOLE_UNKNOWN_PLACE);
        return;
    }
    if (report->is_short) {
        put_short(report);
        return;
    }
    if (!find_prn(report->supplement, prn, &row)) {
        report->lost = true;
        put_unknown(report, RAKHUBOLE_UNKNOWN_PRN);
        return;
    }
    size_t start = report->place;
    report->place += row.width;
    if (report->place > report->bits) {
        report->is_short = true;
        put_short(report);
    } else if (!find_slot(report->supplement, &row, &slot)) {
        put_unknown(report, RAKHUBOLE_UNKNOWN_SLOT);
    } else if (row.form > FORM_BCD) {
        put_unknown(report, RAKHUBOLE_UNKNOWN_FORM);
    } else if (row.width > WIDTH_SHOWN_MOST) {
        put_unknown(report, RAKHUBOLE_UNKNOWN_WIDTH);
    } else {
        put_item(report, &slot, cut_bits(report->data, start, row.width));
    }
}

static void report_remainder(struct report *report, bool has_layout)
{
    if (!has_layout) {
        put_unknown(report, RAKHUBOLE_UNKNOWN_LAYOUT);
    } else if (report->lost) {
        put_unknown(report, RAKHUBOLE_UNKNOWN_PLACE);
    } else if (report->is_short) {
        put_short(report);
    } else {
        put_row(report, RAKHUBOLE_ROW_LEFT, report->bits - report->place, RAKHUBOLE_OTHER_BODY);
        if (report->place < report->bits)
            report->flagged = true;
    }
}

static void make_report(struct report *report, const struct frame *frame, const uint8_t *layout)
{
    for (size_t i = 0; layout && i < layout[LAYOUT_COUNT]; i++)
        report_item(report, number_16(layout + LAYOUT_PRN_LIST + 2 * i));
    report_remainder(report, layout != NULL);
    if (frame->kind == 3)
        put_unknown(report, RAKHUBOLE_UNKNOWN_RESPONSE);
    else
        put_row(report, RAKHUBOLE_ROW_ANSWERED, frame->kind, RAKHUBOLE_OTHER_BODY);
    unsigned verdict = report->flagged   ? RAKHUBOLE_FLAGGED
                       : report->unknown ? RAKHUBOLE_VERDICT_UNKNOWN
                                         : RAKHUBOLE_CLEAR;
    put_row(report, RAKHUBOLE_ROW_VERDICT, verdict, RAKHUBOLE_OTHER_BODY);
}

/* The answer for an accepted supplement and the parts of an accepted frame or
 * message. */
static uint64_t report_parts(const struct supplement *supplement, const struct frame *frame,
                             uint8_t *out, size_t out_length)
{
    size_t selector = selector_length(supplement, frame);
    struct report report = {
        .supplement = supplement,
        .data = frame->data + selector,
        .bits = 8 * (frame->data_length - selector),
    };
    make_report(&report, frame, find_layout(supplement, frame, selector));
    if (out_length < report.length)
        return RAKHUBOLE_OUT_TOO_SHORT;
    memcpy(out, report.rows, report.length);
    return (uint64_t)report.length << 8;
}

uint64_t decoder_report(const uint8_t *supplement, size_t supplement_length, const uint8_t *first,
                        size_t first_length, const uint8_t *response, size_t response_length,
                        uint8_t *out, size_t out_length)
{
    struct supplement records = {supplement, supplement_length};
    struct frame frame;
    uint64_t refusal = decoder_check(supplement, supplement_length);
    if (!refusal)
        refusal = read_frame(first, first_length, response, response_length, &frame);
    return refusal ? refusal : report_parts(&records, &frame, out, out_length);
}

uint64_t decoder_iso_report(const uint8_t *supplement, size_t supplement_length,
                            const uint8_t *run, size_t run_length, uint8_t *out,
                            size_t out_length)
{
    struct supplement records = {supplement, supplement_length};
    struct frame message;
    uint64_t refusal = decoder_check(supplement, supplement_length);
    if (!refusal)
        refusal = read_message(run, run_length, &message);
    return refusal ? refusal : report_parts(&records, &message, out, out_length);
}
