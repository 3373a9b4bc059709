#include "decoder.h"
#include "decoder_parts.h"

#include "rakhubole.h"
#include "sae_rows.h"

#include <string.h>

/* ---- The SAE tables ---- */

#define COUNT(array) (sizeof(array) / sizeof((array)[0]))

static const struct prn_row *find_sae_prn(uint16_t prn)
{
    size_t low = 0, high = COUNT(sae_prns);
    while (low < high) {
        size_t middle = (low + high) / 2;
        if (sae_prns[middle].prn < prn)
            low = middle + 1;
        else
            high = middle;
    }
    return low < COUNT(sae_prns) && sae_prns[low].prn == prn ? &sae_prns[low] : NULL;
}

static uint32_t slot_key(uint8_t form, uint8_t width, uint16_t number)
{
    return (uint32_t)form << 24 | (uint32_t)width << 16 | number;
}

static uint32_t key_of_slot(const struct slot_row *slot)
{
    return slot_key(slot->form, slot->width, slot->number);
}

static const struct slot_row *find_sae_slot(uint32_t key)
{
    size_t low = 0, high = COUNT(sae_slots);
    while (low < high) {
        size_t middle = (low + high) / 2;
        if (key_of_slot(&sae_slots[middle]) < key)
            low = middle + 1;
        else
            high = middle;
    }
    return low < COUNT(sae_slots) && key_of_slot(&sae_slots[low]) == key ? &sae_slots[low] : NULL;
}

/* ---- The supplement ---- */

/* Bytes of a record, kind byte included; each is longer than a key. */
static size_t record_length(uint8_t kind)
{
    switch (kind) {
    case RECORD_SLOT: return SLOT_SIZE;
    case RECORD_PRN: return PRN_SIZE;
    case RECORD_LAYOUT: return LAYOUT_SIZE;
    default: return SELECTOR_SIZE;
    }
}

/* Each kind compares as many bytes as it has, a number that the compiler knows. */
static bool same_key(const uint8_t *record, const uint8_t *key)
{
    if (record[0] != key[0])
        return false;
    switch (record[0]) {
    case RECORD_SLOT: return memcmp(record + 1, key + 1, SLOT_KEY_SIZE - 1) == 0;
    case RECORD_PRN: return memcmp(record + 1, key + 1, PRN_KEY_SIZE - 1) == 0;
    case RECORD_LAYOUT: return memcmp(record + 1, key + 1, LAYOUT_KEY_SIZE - 1) == 0;
    default: return memcmp(record + 1, key + 1, SELECTOR_KEY_SIZE - 1) == 0;
    }
}

/* The first of those whole records that has that kind and key, or NULL. */
static const uint8_t *find_record(const uint8_t *records, size_t length, const uint8_t *key)
{
    for (size_t place = 0; place < length; place += record_length(records[place]))
        if (same_key(records + place, key))
            return records + place;
    return NULL;
}

static bool form_and_width_fit(uint8_t form, uint8_t width)
{
    return form >= FORM_UNM && form <= FORM_LAST && width >= 1 && width <= WIDTH_MOST;
}

static bool limits_in_order(uint8_t form, uint32_t lowest, uint32_t highest)
{
    return form == FORM_SNM ? as_signed(lowest) <= as_signed(highest) : lowest <= highest;
}

static bool header_fits(uint8_t first_byte, uint8_t target)
{
    return first_byte & BIT_H ? target == 0 : (first_byte & PRIORITY_BITS) == 0;
}

static bool is_zero(const uint8_t *start, const uint8_t *end)
{
    for (const uint8_t *byte = start; byte < end; byte++)
        if (*byte != 0)
            return false;
    return true;
}

static bool layout_fits(const uint8_t *record)
{
    size_t length = record[LAYOUT_SELECTOR_LENGTH], count = record[LAYOUT_COUNT];
    return header_fits(record[LAYOUT_FIRST_BYTE], record[LAYOUT_TARGET]) &&
           length <= SELECTOR_MOST && count <= LAYOUT_PRNS &&
           is_zero(record + LAYOUT_SELECTOR + length, record + LAYOUT_COUNT) &&
           is_zero(record + LAYOUT_PRN_LIST + 2 * count, record + LAYOUT_SIZE);
}

static bool selector_fits(const uint8_t *record)
{
    return header_fits(record[SELECTOR_FIRST_BYTE], record[SELECTOR_TARGET]) &&
           record[SELECTOR_LENGTH] <= SELECTOR_MOST;
}

static bool fields_fit(const uint8_t *record)
{
    switch (record[0]) {
    case RECORD_SLOT:
        return form_and_width_fit(record[SLOT_FORM], record[SLOT_WIDTH]) &&
               number_16(record + SLOT_DIVISOR) >= 1 &&
               limits_in_order(record[SLOT_FORM], number_32(record + SLOT_LOWEST),
                               number_32(record + SLOT_HIGHEST));
    case RECORD_PRN: return form_and_width_fit(record[PRN_FORM], record[PRN_WIDTH]);
    case RECORD_LAYOUT: return layout_fits(record);
    default: return selector_fits(record);
    }
}

static bool key_in_sae(const uint8_t *record)
{
    switch (record[0]) {
    case RECORD_SLOT: return find_sae_slot(number_32(record + SLOT_FORM)) != NULL;
    case RECORD_PRN: return find_sae_prn(number_16(record + PRN_NUMBER)) != NULL;
    default: return false;
    }
}

/* The lowest refusal that applies to the record at that place, or 0. */
static unsigned record_fault(const uint8_t *supplement, size_t length, size_t place)
{
    const uint8_t *record = supplement + place;
    if (record[0] < RECORD_SLOT || record[0] > RECORD_SELECTOR)
        return RAKHUBOLE_RECORD_KIND_UNKNOWN;
    if (length - place < record_length(record[0]))
        return RAKHUBOLE_RECORD_CUT;
    if (!fields_fit(record))
        return RAKHUBOLE_FIELD_OUT_OF_RANGE;
    if (find_record(supplement, place, record))
        return RAKHUBOLE_KEY_TWICE;
    if (key_in_sae(record))
        return RAKHUBOLE_KEY_IN_SAE;
    return 0;
}

uint64_t decoder_check(const uint8_t *supplement, size_t supplement_length)
{
    if (supplement_length > SUPPLEMENT_MOST)
        return RAKHUBOLE_SUPPLEMENT_TOO_LONG;
    size_t place = 0;
    while (place < supplement_length) {
        unsigned refusal = record_fault(supplement, supplement_length, place);
        if (refusal)
            return (uint64_t)place << 8 | refusal;
        place += record_length(supplement[place]);
    }
    return 0;
}

/* ---- Both together ---- */

bool find_prn(const struct supplement *supplement, uint16_t prn, struct prn_row *row)
{
    const struct prn_row *sae = find_sae_prn(prn);
    if (sae) {
        *row = *sae;
        return true;
    }
    const uint8_t key[PRN_KEY_SIZE] = {RECORD_PRN, (uint8_t)(prn >> 8), (uint8_t)prn};
    const uint8_t *record = find_record(supplement->records, supplement->length, key);
    if (!record)
        return false;
    row->prn = prn;
    row->form = record[PRN_FORM];
    row->width = record[PRN_WIDTH];
    row->number = number_16(record + PRN_SLOT_NUMBER);
    return true;
}

bool find_slot(const struct supplement *supplement, const struct prn_row *prn,
               struct slot_row *slot)
{
    const struct slot_row *sae = find_sae_slot(slot_key(prn->form, prn->width, prn->number));
    if (sae) {
        *slot = *sae;
        return true;
    }
    const uint8_t key[SLOT_KEY_SIZE] = {RECORD_SLOT, prn->form, prn->width,
                                        (uint8_t)(prn->number >> 8), (uint8_t)prn->number};
    const uint8_t *record = find_record(supplement->records, supplement->length, key);
    if (!record)
        return false;
    slot->form = prn->form;
    slot->width = prn->width;
    slot->number = prn->number;
    slot->multiplier = number_16(record + SLOT_MULTIPLIER);
    slot->divisor = number_16(record + SLOT_DIVISOR);
    slot->offset = (int32_t)as_signed(number_32(record + SLOT_OFFSET));
    slot->lowest = number_32(record + SLOT_LOWEST);
    slot->highest = number_32(record + SLOT_HIGHEST);
    return true;
}

/* The first byte and target under which a supplement has a frame's header. */
static void put_header(const struct frame *frame, uint8_t fields[2])
{
    bool one_byte = frame->header_length == 1;
    fields[0] = one_byte ? frame->header[0] : (uint8_t)(frame->header[0] & ~PRIORITY_BITS);
    fields[1] = one_byte ? 0 : frame->header[1];
}

size_t selector_length(const struct supplement *supplement, const struct frame *frame)
{
    uint8_t key[SELECTOR_KEY_SIZE] = {RECORD_SELECTOR};
    put_header(frame, key + SELECTOR_FIRST_BYTE);
    const uint8_t *record = find_record(supplement->records, supplement->length, key);
    size_t length = record ? record[SELECTOR_LENGTH] : SELECTOR_UNSAID;
    return length < frame->data_length ? length : frame->data_length;
}

const uint8_t *find_layout(const struct supplement *supplement, const struct frame *frame,
                           size_t selector)
{
    uint8_t key[LAYOUT_KEY_SIZE] = {RECORD_LAYOUT};
    put_header(frame, key + LAYOUT_FIRST_BYTE);
    key[LAYOUT_SELECTOR_LENGTH] = (uint8_t)selector;
    memcpy(key + LAYOUT_SELECTOR, frame->data, selector);
    return find_record(supplement->records, supplement->length, key);
}
