#include "refusal.h"

#include "rakhubole.h"
#include "words.h"

#include <stdio.h>

enum { KEY_TEXT_SIZE = 48, DETAIL_SIZE = 96 };

static void key_text(const struct record *record, char text[KEY_TEXT_SIZE])
{
    const uint8_t *bytes = record->bytes;
    char slot[SLOT_NAME_SIZE], selector[SELECTOR_TEXT_SIZE];
    switch (bytes[0]) {
    case RECORD_SLOT:
        slot_name(slot_key_of(record), slot);
        snprintf(text, KEY_TEXT_SIZE, " %s", slot);
        break;
    case RECORD_PRN:
        snprintf(text, KEY_TEXT_SIZE, " %04Xh", number16(bytes + PRN_NUMBER));
        break;
    case RECORD_LAYOUT:
        selector_text(bytes, "h", selector);
        snprintf(text, KEY_TEXT_SIZE, " %02Xh %02Xh %s", bytes[LAYOUT_FIRST_BYTE],
                 bytes[LAYOUT_TARGET], selector);
        break;
    default:
        snprintf(text, KEY_TEXT_SIZE, " of %02Xh %02Xh", bytes[SELECTOR_FIRST_BYTE],
                 bytes[SELECTOR_TARGET]);
    }
}

void record_title(const struct record *record, char title[RECORD_TITLE_SIZE])
{
    static const char *const kinds[] = {"SLOT", "PRN", "layout", "selector length"};
    uint8_t kind = record->bytes[0];
    char key[KEY_TEXT_SIZE] = "";
    if (record_size(kind) == 0) {
        snprintf(title, RECORD_TITLE_SIZE, "kind %02Xh", kind);
        return;
    }
    if (record->length >= record_key_size(kind))
        key_text(record, key);
    snprintf(title, RECORD_TITLE_SIZE, "%s%s", kinds[kind - RECORD_SLOT], key);
}

struct record record_at(const struct supplement *supplement, size_t place)
{
    struct record record = {0, 0, 0, NULL};
    while (record_next(supplement, &record) && record.place < place)
        ;
    return record;
}

static const char *form_fault(struct slot_key key)
{
    if (!form_name(key.form))
        return "the form is not 1 to 9";
    return key.width < 1 || key.width > WIDTH_MOST ? "the width is not 1 to 64 bits" : NULL;
}

static const char *slot_fault(const struct record *record)
{
    const uint8_t *low = record->bytes + SLOT_LOWEST, *high = record->bytes + SLOT_HIGHEST;
    const char *fault = form_fault(slot_key_of(record));
    if (fault)
        return fault;
    if (number16(record->bytes + SLOT_DIVISOR) == 0)
        return "the divisor is 0";
    bool is_signed = slot_key_of(record).form == FORM_SNM;
    if (is_signed ? signed32(low) > signed32(high) : number32(low) > number32(high))
        return "the lowest raw number is above the highest";
    return NULL;
}

/* Of header and selector length, with which a layout begins too. */
static const char *selector_fault(const struct record *record)
{
    const uint8_t *bytes = record->bytes;
    uint8_t first_byte = bytes[SELECTOR_FIRST_BYTE];
    if ((first_byte & BIT_H) == 0 && (first_byte & PRIORITY_BITS) != 0)
        return "the first byte has H = 0 and priority bits";
    if ((first_byte & BIT_H) != 0 && bytes[SELECTOR_TARGET] != 0)
        return "the first byte has H = 1, so the target must be 0";
    return bytes[SELECTOR_LENGTH] > SELECTOR_MOST ? "the selector length is not 0, 1 or 2" : NULL;
}

static const char *layout_fault(const struct record *record)
{
    const uint8_t *bytes = record->bytes, *selector = bytes + LAYOUT_SELECTOR;
    uint8_t length = bytes[LAYOUT_SELECTOR_LENGTH];
    const char *fault = selector_fault(record);
    if (fault)
        return fault;
    if ((length < 1 && selector[0] != 0) || (length < 2 && selector[1] != 0))
        return "an unused selector byte is not 0";
    if (bytes[LAYOUT_COUNT] > LAYOUT_PRNS)
        return "the count is above 16";
    for (size_t i = bytes[LAYOUT_COUNT]; i < LAYOUT_PRNS; i++)
        if (layout_prn(record, i) != 0)
            return "a PRN behind the count is not 0";
    return NULL;
}

static const char *field_fault(const struct record *record)
{
    switch (record->bytes[0]) {
    case RECORD_SLOT: return slot_fault(record);
    case RECORD_PRN: return form_fault(slot_key_of(record));
    case RECORD_LAYOUT: return layout_fault(record);
    default: return selector_fault(record);
    }
}

void record_fault(const struct record *record, unsigned refusal, char words[RECORD_FAULT_SIZE])
{
    char detail[DETAIL_SIZE] = "";
    const char *fault;
    if (refusal == RAKHUBOLE_RECORD_KIND_UNKNOWN)
        snprintf(detail, sizeof detail, ": 1 is a SLOT, 2 a PRN, 3 a layout, 4 a selector length%s",
                 record->place == 0 ? "; is this a text to compile?" : "");
    else if (refusal == RAKHUBOLE_RECORD_CUT)
        snprintf(detail, sizeof detail, ": %zu bytes of %zu", record->length,
                 record_size(record->bytes[0]));
    else if (refusal == RAKHUBOLE_FIELD_OUT_OF_RANGE && (fault = field_fault(record)))
        snprintf(detail, sizeof detail, ": %s", fault);
    snprintf(words, RECORD_FAULT_SIZE, "%s (%u)%s", refusal_words(refusal), refusal, detail);
}

struct record record_alike(const struct supplement *supplement, const struct record *record)
{
    struct record alike;
    record_find(supplement, record->bytes, record_key_size(record->bytes[0]), &alike);
    return alike;
}

void supplement_fault(const struct supplement *supplement, uint64_t answer,
                      char words[FAULT_SIZE])
{
    unsigned refusal = RAKHUBOLE_REFUSAL(answer);
    if (refusal == RAKHUBOLE_SUPPLEMENT_TOO_LONG || supplement->length == 0) {
        snprintf(words, FAULT_SIZE, "%s (%u)", refusal_words(refusal), refusal);
        return;
    }
    struct record record = record_at(supplement, RAKHUBOLE_PLACE(answer));
    char title[RECORD_TITLE_SIZE], fault[RECORD_FAULT_SIZE], alike[DETAIL_SIZE] = "";
    record_title(&record, title);
    record_fault(&record, refusal, fault);
    if (refusal == RAKHUBOLE_KEY_TWICE) {
        struct record earlier = record_alike(supplement, &record);
        snprintf(alike, sizeof alike, ": record %zu at byte %zu", earlier.number, earlier.place);
    }
    snprintf(words, FAULT_SIZE, "record %zu at byte %zu, %s: %s%s", record.number, record.place,
             title, fault, alike);
}

/* A layout in the earlier form: whether there is a selector, and one byte for it. */
enum { EARLIER_LAYOUT_SIZE = 38 };

/* The size of a record in that form, 0 for a kind that it does not have. */
static size_t earlier_size(uint8_t kind)
{
    switch (kind) {
    case RECORD_LAYOUT: return EARLIER_LAYOUT_SIZE;
    case RECORD_SELECTOR: return 0;
    default: return record_size(kind);
    }
}

/* Not for a file over the limit, of which only the start was read. */
static bool fits_earlier_form(const struct supplement *supplement)
{
    size_t place = 0, size;
    bool has_layout = false;
    while (place < supplement->length && (size = earlier_size(supplement->bytes[place])) != 0) {
        has_layout = has_layout || supplement->bytes[place] == RECORD_LAYOUT;
        place += size;
    }
    return has_layout && place == supplement->length && place <= SUPPLEMENT_MOST;
}

const char *earlier_form_words(const struct supplement *supplement)
{
    return fits_earlier_form(supplement)
               ? "looks like a file in the earlier form of layouts, before selector lengths: ask "
                 "its maker to reissue it, or compile its text again"
               : NULL;
}
