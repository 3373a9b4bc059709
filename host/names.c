#include "names.h"

#include "words.h"

#include <stdlib.h>
#include <string.h>

struct layout layout_sought(const struct supplement *supplement, const uint8_t *header,
                            size_t header_length, const uint8_t *data, size_t data_length)
{
    bool is_short = header_length == 1;
    struct layout layout = {{RECORD_LAYOUT}, false, 0, {0}};
    uint8_t *start = layout.start;
    start[LAYOUT_FIRST_BYTE] = is_short ? header[0] : (uint8_t)(header[0] & ~PRIORITY_BITS);
    start[LAYOUT_TARGET] = is_short ? 0 : header[1];
    size_t length = selector_length_of(supplement, start + LAYOUT_FIRST_BYTE).bytes;
    length = length < SELECTOR_MOST ? length : SELECTOR_MOST; /* what the key has room for */
    length = length < data_length ? length : data_length;
    start[LAYOUT_SELECTOR_LENGTH] = (uint8_t)length;
    memcpy(start + LAYOUT_SELECTOR, data, length);
    struct record record;
    layout.is_found = record_find(supplement, start, sizeof layout.start, &record);
    if (!layout.is_found)
        return layout;
    size_t count = record.bytes[LAYOUT_COUNT];
    layout.count = count < LAYOUT_PRNS ? count : LAYOUT_PRNS;
    for (size_t i = 0; i < layout.count; i++)
        layout.prns[i] = layout_prn(&record, i);
    return layout;
}

static int compare_prns(const void *key, const void *row)
{
    return *(const uint16_t *)key - ((const struct sae_prn *)row)->prn;
}

struct label label_of(const struct supplement *supplement, uint16_t prn)
{
    struct label label = {prn, false, false, {0, 0, 0}, NULL, NULL};
    const struct sae_prn *row =
        bsearch(&prn, sae_prns, sae_prns_count, sizeof *sae_prns, compare_prns);
    if (row) {
        label.is_found = label.is_sae = true;
        label.slot = (struct slot_key){row->form, row->width, row->number};
        label.name = row->name;
        label.unit = *row->unit ? row->unit : NULL;
        return label;
    }
    const uint8_t start[PRN_KEY_SIZE] = {RECORD_PRN, (uint8_t)(prn >> 8), (uint8_t)prn};
    struct record record;
    label.is_found = record_find(supplement, start, sizeof start, &record);
    if (label.is_found)
        label.slot = slot_key_of(&record);
    return label;
}

const char *state_text(struct slot_key slot, uint32_t code)
{
    for (size_t i = 0; slot.form == FORM_SED && i < sae_states_count; i++) {
        const struct sae_state *state = &sae_states[i];
        if (state->width == slot.width && state->number == slot.number && state->low <= code &&
            code <= state->high)
            return state->text;
    }
    return NULL;
}

const struct sae_gap *state_gap(struct slot_key slot, uint32_t code)
{
    for (size_t i = 0; slot.form == FORM_SED && i < sae_gaps_count; i++) {
        const struct sae_gap *gap = &sae_gaps[i];
        if (gap->width == slot.width && gap->number == slot.number && gap->low <= code &&
            code <= gap->high)
            return gap;
    }
    return NULL;
}

const struct sae_item *slot_items(struct slot_key slot, size_t *count)
{
    const struct sae_item *items = sae_items, *end = sae_items + sae_items_count;
    *count = 0;
    if (slot.form != FORM_BMP)
        return items;
    while (items < end && (items->width != slot.width || items->number != slot.number))
        items++;
    while (items + *count < end && items[*count].width == slot.width &&
           items[*count].number == slot.number)
        ++*count;
    return items;
}
