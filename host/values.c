#include "values.h"

#include "words.h"

#include <inttypes.h>
#include <math.h>
#include <stdio.h>
#include <stdlib.h>
#include <string.h>

double double_of(uint64_t bits)
{
    double number;
    memcpy(&number, &bits, sizeof number);
    return number;
}

bool number_text(double number, char text[VALUE_SIZE])
{
    enum { DIGITS_MOST = 17, LOWEST_POWER = -6, HIGHEST_POWER = 17 };
    uint64_t bits;
    memcpy(&bits, &number, sizeof bits);
    if (!isfinite(number)) {
        snprintf(text, VALUE_SIZE, "no number (%016" PRIX64 "h)", bits);
        return false;
    }
    int digits = 0;
    do
        snprintf(text, VALUE_SIZE, "%.*e", digits, number);
    while (strtod(text, NULL) != number && ++digits < DIGITS_MOST);
    int power = atoi(strchr(text, 'e') + 1);
    if (power >= LOWEST_POWER && power <= HIGHEST_POWER)
        snprintf(text, VALUE_SIZE, "%.*f", digits > power ? digits - power : 0, number);
    return true;
}

/* The item's bits, the most if they are not known. */
static unsigned width_of(const struct label *label)
{
    bool is_known = label && label->is_found && label->slot.width <= WIDTH_SHOWN_MOST;
    return is_known ? label->slot.width : WIDTH_SHOWN_MOST;
}

void code_text(uint64_t code, const struct label *label, char text[VALUE_SIZE])
{
    int digits = (int)(width_of(label) + 3) / 4;
    snprintf(text, VALUE_SIZE, "%0*" PRIX64, digits, code);
}

void bits_text(uint64_t code, const struct label *label, char text[VALUE_SIZE])
{
    size_t length = 0;
    for (unsigned left = width_of(label); left > 0; left--) {
        text[length++] = code >> (left - 1) & 1 ? '1' : '0';
        if (left > 1 && (left - 1) % 4 == 0)
            text[length++] = ' ';
    }
    text[length] = '\0';
}

void characters_text(uint64_t code, char text[VALUE_SIZE])
{
    size_t length = 0;
    for (int shift = 24; shift >= 0; shift -= 8) {
        char c = (char)(code >> shift & 0xFF);
        if (c >= 0x20 && c <= 0x7E)
            text[length++] = c;
    }
    text[length] = '\0';
}

uint32_t item_bits(uint64_t code, const struct sae_item *item)
{
    unsigned count = item->last - item->first + 1u;
    return (uint32_t)(code >> (item->width - item->last) & ((UINT64_C(1) << count) - 1));
}

/* Why a raw number is Invalid, by the form of its SLOT. */
static void invalid_text(const struct label *label, char text[REASON_SIZE])
{
    char slot[SLOT_NAME_SIZE];
    unsigned form = label && label->is_found ? label->slot.form : 0;
    if (form == FORM_ASC) {
        snprintf(text, REASON_SIZE, "a byte is no printable character");
    } else if (form == FORM_BCD) {
        snprintf(text, REASON_SIZE, "a digit is over 9");
    } else if (form == FORM_UNM || form == FORM_SNM) {
        slot_name(label->slot, slot);
        snprintf(text, REASON_SIZE, "outside the raw limits of %s", slot);
    } else {
        snprintf(text, REASON_SIZE, "not a value of its SLOT");
    }
}

void reason_text(const struct row *row, const struct label *label, char text[REASON_SIZE])
{
    unsigned unknown = (unsigned)row->body;
    bool names_slot = unknown == RAKHUBOLE_UNKNOWN_SLOT || unknown == RAKHUBOLE_UNKNOWN_FORM ||
                      unknown == RAKHUBOLE_UNKNOWN_WIDTH;
    char slot[SLOT_NAME_SIZE];
    text[0] = '\0';
    if (row->kind == RAKHUBOLE_ROW_INVALID) {
        invalid_text(label, text);
    } else if (row->kind == RAKHUBOLE_ROW_SHORT) {
        snprintf(text, REASON_SIZE, "the data end too early");
    } else if (row->kind == RAKHUBOLE_ROW_UNKNOWN && names_slot && label && label->is_found) {
        slot_name(label->slot, slot);
        snprintf(text, REASON_SIZE, "%s (%s)", unknown_words(unknown), slot);
    } else if (row->kind == RAKHUBOLE_ROW_UNKNOWN) {
        snprintf(text, REASON_SIZE, "%s", unknown_words(unknown));
    }
}
