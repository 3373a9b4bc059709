/* Supplements from the bytes of a fuzz input: one step after the other, each a
 * byte of which the low three bits say what it adds or damages. */
#include "draft.h"

#include "format.h"
#include "judge.h"
#include "rakhubole.h"
#include "rows.h"
#include "sae_rows.h"

#include <string.h>

/* Records that are taken out one by one; behind the next fault all is. */
#define MOST_FAULTS 10
#define COUNT(array) (sizeof(array) / sizeof((array)[0]))

enum step {
    END,
    SLOT = RECORD_SLOT,
    PRN = RECORD_PRN,
    LAYOUT = RECORD_LAYOUT,
    SELECTOR = RECORD_SELECTOR,
    PRN_RUN,
    SLOT_RUN,
    DAMAGE
};

/* Where a key comes from: bits 3 and 4 of a step. Where the SLOT of a PRN
 * comes from: bits 5 and 6. */
enum origin { FROM_FEED, FROM_RECORD, FROM_SAE, FROM_FEED_TOO };
/* SAE has no headers: that of a layout or selector record is one of the other. */
#define FROM_OTHER FROM_SAE
#define KEY_ORIGIN(step) ((enum origin)((step) >> 3 & 3))
#define SLOT_ORIGIN(step) ((enum origin)((step) >> 5 & 3))
/* Of a SLOT: every raw number lies within the limits. */
#define WITHOUT_LIMITS 0x20
/* Of a SLOT: the key is one that a PRN names. */
#define WANTED 0x40
/* Of DAMAGE: the end is cut off, or any bytes are put behind it. */
#define CUT 0x08
#define RAW_BYTES 0x10
/* A byte from here on is a selector's length as it is, out of range. */
#define WRONG_LENGTHS 0xF0

struct slot_key {
    uint8_t form;
    uint8_t width;
    uint16_t number;
};

/* By kind, which is the step that puts one; 1 for an unknown kind. */
static const size_t record_lengths[] = {
    1,
    [RECORD_SLOT] = SLOT_SIZE,
    [RECORD_PRN] = PRN_SIZE,
    [RECORD_LAYOUT] = LAYOUT_SIZE,
    [RECORD_SELECTOR] = SELECTOR_SIZE,
};

size_t record_length(const uint8_t *record, size_t left)
{
    size_t length = record_lengths[record[0] <= SELECTOR ? record[0] : 0];
    return length < left ? length : left;
}

/* Some whole record of that kind among those put so far, or NULL. */
static const uint8_t *some_record(struct feed *feed, const struct draft *draft, enum step kind)
{
    const uint8_t *found = NULL;
    size_t passed = 0, wanted = take_byte(feed), place = 0;
    while (place < draft->length && passed <= wanted) {
        const uint8_t *record = draft->bytes + place;
        size_t length = record_length(record, draft->length - place);
        if (record[0] == kind && length == record_lengths[kind]) {
            found = record;
            passed++;
        }
        place += length;
    }
    return found;
}

static uint16_t number_at(const uint8_t *bytes)
{
    return (uint16_t)(bytes[0] << 8 | bytes[1]);
}

static uint16_t sae_prn(struct feed *feed)
{
    return sae_prns[take_16(feed) % COUNT(sae_prns)].prn;
}

static struct slot_key key_from_feed(struct feed *feed)
{
    uint8_t form = (uint8_t)(1 + take_byte(feed) % FORM_LAST);
    uint8_t width = (uint8_t)(1 + take_byte(feed) % WIDTH_MOST);
    return (struct slot_key){form, width, take_16(feed)};
}

/* The key of a SLOT: a new one, that of a record, of an SAE row, or one that a
 * PRN record names. */
static struct slot_key slot_key(struct feed *feed, const struct draft *draft, enum origin origin,
                                bool wanted)
{
    const uint8_t *record;
    if (origin == FROM_SAE) {
        const struct slot_row *row = &sae_slots[take_byte(feed) % COUNT(sae_slots)];
        return (struct slot_key){row->form, row->width, row->number};
    }
    if (wanted && (record = some_record(feed, draft, PRN)))
        return (struct slot_key){record[PRN_FORM], record[PRN_WIDTH],
                                 number_at(record + PRN_SLOT_NUMBER)};
    if (origin == FROM_RECORD && (record = some_record(feed, draft, SLOT)))
        return (struct slot_key){record[SLOT_FORM], record[SLOT_WIDTH],
                                 number_at(record + SLOT_NUMBER)};
    return key_from_feed(feed);
}

static void put_slot_key(struct draft *draft, struct slot_key key)
{
    put(draft, key.form, 1);
    put(draft, key.width, 1);
    put(draft, key.number, 2);
}

/* In order, as signed for SNM. */
static void put_limits(struct draft *draft, uint8_t form, uint32_t one, uint32_t other)
{
    uint32_t raised = form == FORM_SNM ? 0x80000000u : 0;
    bool in_order = (one ^ raised) <= (other ^ raised);
    put(draft, in_order ? one : other, 4);
    put(draft, in_order ? other : one, 4);
}

static void put_slot(struct feed *feed, struct draft *draft, uint8_t step)
{
    struct slot_key key = slot_key(feed, draft, KEY_ORIGIN(step), step & WANTED);
    uint16_t multiplier = take_16(feed), divisor = take_16(feed);
    put(draft, SLOT, 1);
    put_slot_key(draft, key);
    put(draft, multiplier, 2);
    put(draft, divisor ? divisor : 1, 2);
    put(draft, take_32(feed), 4);
    uint32_t one = key.form == FORM_SNM ? 0x80000000u : 0, other = one - 1;
    if (!(step & WITHOUT_LIMITS)) {
        one = take_32(feed);
        other = take_32(feed);
    }
    put_limits(draft, key.form, one, other);
}

/* A PRN: a new one, that of a record, or of an SAE row. */
static uint16_t prn_key(struct feed *feed, const struct draft *draft, enum origin origin)
{
    const uint8_t *record;
    if (origin == FROM_SAE)
        return sae_prn(feed);
    if (origin == FROM_RECORD && (record = some_record(feed, draft, PRN)))
        return number_at(record + PRN_NUMBER);
    return take_16(feed);
}

static void put_prn(struct feed *feed, struct draft *draft, uint8_t step)
{
    uint16_t prn = prn_key(feed, draft, KEY_ORIGIN(step));
    struct slot_key key = slot_key(feed, draft, SLOT_ORIGIN(step), false);
    put(draft, PRN, 1);
    put(draft, prn, 2);
    put_slot_key(draft, key);
}

/* A record of which a layout or selector record takes the header, or NULL for a
 * new one. */
static const uint8_t *header_record(struct feed *feed, const struct draft *draft, uint8_t step)
{
    enum step kind = (enum step)(step % 8), other = kind == LAYOUT ? SELECTOR : LAYOUT;
    switch (KEY_ORIGIN(step)) {
    case FROM_RECORD: return some_record(feed, draft, kind);
    case FROM_OTHER: return some_record(feed, draft, other);
    default: return NULL;
    }
}

static void put_fields(struct draft *draft, const uint8_t *fields, const uint8_t *end)
{
    for (; fields < end; fields++)
        put(draft, *fields, 1);
}

/* The first two fields of a layout and of a selector record. */
static void put_header(struct feed *feed, struct draft *draft, const uint8_t *record)
{
    if (record) {
        put_fields(draft, record + LAYOUT_FIRST_BYTE, record + LAYOUT_SELECTOR_LENGTH);
        return;
    }
    uint8_t first_byte = take_byte(feed), target = take_byte(feed);
    bool one_byte = first_byte & BIT_H;
    put(draft, one_byte ? first_byte : (uint8_t)(first_byte & ~PRIORITY_BITS), 1);
    put(draft, one_byte ? 0 : target, 1);
}

static uint8_t take_selector_length(struct feed *feed)
{
    uint8_t byte = take_byte(feed);
    return byte < WRONG_LENGTHS ? byte % (SELECTOR_MOST + 1) : byte;
}

/* The whole key is that of an earlier layout, or the header is one for which there
 * is a length: that of this layout or another. */
static void put_layout_key(struct feed *feed, struct draft *draft, uint8_t step)
{
    const uint8_t *record = header_record(feed, draft, step);
    if (record && record[0] == LAYOUT) {
        put_fields(draft, record + LAYOUT_FIRST_BYTE, record + LAYOUT_KEY_SIZE);
        return;
    }
    put_header(feed, draft, record);
    uint8_t length = take_selector_length(feed);
    put(draft, length, 1);
    for (uint8_t i = 0; i < SELECTOR_MOST; i++)
        put(draft, i < length ? take_byte(feed) : 0, 1);
}

/* For the header of a layout the length is that of its selector. */
static void put_selector(struct feed *feed, struct draft *draft, uint8_t step)
{
    const uint8_t *record = header_record(feed, draft, step);
    put(draft, SELECTOR, 1);
    put_header(feed, draft, record);
    bool is_met = record && record[0] == LAYOUT;
    put(draft, is_met ? record[LAYOUT_SELECTOR_LENGTH] : take_selector_length(feed), 1);
}

/* The origin of each PRN stands in the low bits of a byte before it. */
static void put_layout(struct feed *feed, struct draft *draft, uint8_t step)
{
    put(draft, LAYOUT, 1);
    put_layout_key(feed, draft, step);
    uint8_t count = take_byte(feed) % (LAYOUT_PRNS + 1);
    put(draft, count, 1);
    for (uint8_t i = 0; i < LAYOUT_PRNS; i++)
        put(draft, i < count ? prn_key(feed, draft, (enum origin)(take_byte(feed) & 3)) : 0, 2);
}

/* Records with keys that rise by a step; a few such runs fill a supplement. */
static void put_prn_run(struct feed *feed, struct draft *draft)
{
    uint16_t prn = take_16(feed), rise = take_byte(feed);
    size_t count = take_length(feed);
    struct slot_key key = key_from_feed(feed);
    for (size_t i = 0; i < count; i++) {
        put(draft, PRN, 1);
        put(draft, prn, 2);
        put_slot_key(draft, key);
        prn = (uint16_t)(prn + rise);
    }
}

static void put_slot_run(struct feed *feed, struct draft *draft)
{
    struct slot_key key = key_from_feed(feed);
    uint16_t rise = take_byte(feed);
    size_t count = take_length(feed);
    for (size_t i = 0; i < count; i++) {
        put(draft, SLOT, 1);
        put_slot_key(draft, key);
        put(draft, 0x00010001, 4);
        put(draft, 0, 4);
        put_limits(draft, key.form, 0, 255);
        key.number = (uint16_t)(key.number + rise);
    }
}

/* Any bytes put behind, another byte at some place, or the end cut off. */
static void damage(struct feed *feed, struct draft *draft, uint8_t step)
{
    if (step & RAW_BYTES) {
        put_run(draft, feed, take_byte(feed));
        return;
    }
    uint16_t place = take_16(feed);
    if (draft->length == 0)
        return;
    if (step & CUT)
        draft->length -= place % draft->length;
    else
        draft->bytes[place % draft->length] = take_byte(feed);
}

void draft_supplement(struct feed *feed, struct draft *supplement)
{
    uint8_t step;
    while ((step = take_byte(feed)) % 8 != END) {
        switch ((enum step)(step % 8)) {
        case SLOT: put_slot(feed, supplement, step); break;
        case PRN: put_prn(feed, supplement, step); break;
        case LAYOUT: put_layout(feed, supplement, step); break;
        case SELECTOR: put_selector(feed, supplement, step); break;
        case PRN_RUN: put_prn_run(feed, supplement); break;
        case SLOT_RUN: put_slot_run(feed, supplement); break;
        default: damage(feed, supplement, step); break;
        }
    }
}

void mend(struct draft *supplement)
{
    uint64_t answer;
    if (supplement->length > SUPPLEMENT_MOST)
        supplement->length = SUPPLEMENT_MOST;
    for (size_t faults = 0;
         (answer = judge_calls.check(supplement->bytes, supplement->length)) != 0; faults++) {
        size_t place = RAKHUBOLE_PLACE(answer), left = supplement->length - place;
        uint8_t *record = supplement->bytes + place;
        size_t taken = faults < MOST_FAULTS ? record_length(record, left) : left;
        memmove(record, record + taken, left - taken);
        supplement->length -= taken;
    }
}

void seek_layout(struct feed *feed, const struct draft *supplement, struct draft *first)
{
    const uint8_t *layout = some_record(feed, supplement, LAYOUT);
    if (!layout)
        return;
    bool one_byte = layout[LAYOUT_FIRST_BYTE] & BIT_H;
    uint8_t *bytes = first->bytes;
    size_t header = one_byte ? 1 : 3;
    if (first->length <= header)
        return;
    bytes[0] = layout[LAYOUT_FIRST_BYTE] | (one_byte ? 0 : bytes[0] & PRIORITY_BITS);
    if (!one_byte)
        bytes[1] = layout[LAYOUT_TARGET];
    size_t room = first->length - header, length = layout[LAYOUT_SELECTOR_LENGTH];
    if (length <= SELECTOR_MOST)
        memcpy(bytes + header, layout + LAYOUT_SELECTOR, length < room ? length : room);
}

void draft_report_supplement(struct feed *feed, uint8_t flags, struct draft *supplement,
                             struct draft *first)
{
    draft_supplement(feed, supplement);
    if (flags & MENDED)
        mend(supplement);
    if (flags & SOUGHT)
        seek_layout(feed, supplement, first);
}
