#include "records.h"

#include "words.h"

#include <stdio.h>
#include <string.h>

size_t record_size(uint8_t kind)
{
    switch (kind) {
    case RECORD_SLOT: return SLOT_SIZE;
    case RECORD_PRN: return PRN_SIZE;
    case RECORD_LAYOUT: return LAYOUT_SIZE;
    case RECORD_SELECTOR: return SELECTOR_SIZE;
    default: return 0;
    }
}

size_t record_key_size(uint8_t kind)
{
    switch (kind) {
    case RECORD_SLOT: return SLOT_KEY_SIZE;
    case RECORD_PRN: return PRN_KEY_SIZE;
    case RECORD_LAYOUT: return LAYOUT_KEY_SIZE;
    default: return SELECTOR_KEY_SIZE;
    }
}

bool record_next(const struct supplement *supplement, struct record *record)
{
    size_t place = record->number ? record->place + record->length : 0;
    if (place >= supplement->length)
        return false;
    size_t rest = supplement->length - place;
    size_t size = record_size(supplement->bytes[place]);
    record->number++;
    record->place = place;
    record->bytes = supplement->bytes + place;
    record->length = size == 0 ? 1 : size < rest ? size : rest;
    return true;
}

bool record_find(const struct supplement *supplement, const uint8_t *start, size_t length,
                 struct record *record)
{
    record->number = 0;
    while (record_next(supplement, record))
        if (record->length >= length && memcmp(record->bytes, start, length) == 0)
            return true;
    return false;
}

uint16_t number16(const uint8_t *bytes)
{
    return (uint16_t)(bytes[0] << 8 | bytes[1]);
}

uint32_t number32(const uint8_t *bytes)
{
    return (uint32_t)number16(bytes) << 16 | number16(bytes + 2);
}

int32_t signed32(const uint8_t *bytes)
{
    uint32_t pattern = number32(bytes);
    return pattern <= INT32_MAX ? (int32_t)pattern : -(int32_t)(UINT32_MAX - pattern) - 1;
}

uint64_t number64(const uint8_t *bytes)
{
    return (uint64_t)number32(bytes) << 32 | number32(bytes + 4);
}

int64_t signed64(const uint8_t *bytes)
{
    uint64_t pattern = number64(bytes);
    return pattern <= INT64_MAX ? (int64_t)pattern : -(int64_t)(UINT64_MAX - pattern) - 1;
}

struct slot_key slot_key_of(const struct record *record)
{
    const uint8_t *at = record->bytes + (record->bytes[0] == RECORD_PRN ? PRN_FORM : SLOT_FORM);
    return (struct slot_key){at[0], at[1], number16(at + 2)};
}

uint16_t layout_prn(const struct record *record, size_t i)
{
    return number16(record->bytes + LAYOUT_PRN_LIST + 2 * i);
}

struct selector_length selector_length_of(const struct supplement *supplement,
                                          const uint8_t header[2])
{
    const uint8_t start[SELECTOR_KEY_SIZE] = {RECORD_SELECTOR, header[0], header[1]};
    struct record record;
    if (!record_find(supplement, start, sizeof start, &record))
        return (struct selector_length){SELECTOR_UNSAID, false};
    return (struct selector_length){record.bytes[SELECTOR_LENGTH], true};
}

void header_text(const uint8_t header[2], char text[HEADER_TEXT_SIZE])
{
    if ((header[0] & BIT_H) == 0)
        snprintf(text, HEADER_TEXT_SIZE, "header %02X %02X", header[0], header[1]);
    else
        snprintf(text, HEADER_TEXT_SIZE, "header %02X", header[0]);
}

void selector_text(const uint8_t start[LAYOUT_KEY_SIZE], const char *mark,
                   char text[SELECTOR_TEXT_SIZE])
{
    const uint8_t *bytes = start + LAYOUT_SELECTOR;
    if (start[LAYOUT_SELECTOR_LENGTH] == 0)
        snprintf(text, SELECTOR_TEXT_SIZE, "no selector");
    else if (start[LAYOUT_SELECTOR_LENGTH] == 1)
        snprintf(text, SELECTOR_TEXT_SIZE, "selector %02X%s", bytes[0], mark);
    else
        snprintf(text, SELECTOR_TEXT_SIZE, "selector %02X%s %02X%s", bytes[0], mark, bytes[1],
                 mark);
}

void layout_key_text(const uint8_t start[LAYOUT_KEY_SIZE], char text[LAYOUT_TEXT_SIZE])
{
    char header[HEADER_TEXT_SIZE], selector[SELECTOR_TEXT_SIZE];
    header_text(start + LAYOUT_FIRST_BYTE, header);
    selector_text(start, "", selector);
    snprintf(text, LAYOUT_TEXT_SIZE, "%s %s", header, selector);
}

void slot_name(struct slot_key key, char name[SLOT_NAME_SIZE])
{
    const char *form = form_name(key.form);
    if (form)
        snprintf(name, SLOT_NAME_SIZE, "%s-%02u-%u", form, key.width, key.number);
    else
        snprintf(name, SLOT_NAME_SIZE, "form %u-%02u-%u", key.form, key.width, key.number);
}
