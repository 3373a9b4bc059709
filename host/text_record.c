#include "text_record.h"

#include "hex.h"
#include "text.h"
#include "words.h"

#include <stdio.h>
#include <string.h>

/* What is left of the line, the word read last, and the first fault. */
struct cursor {
    const char *at, *end;
    const char *word;
    int length;
    char *fault;
};

/* Reads the next word; its length is 0 at the end of the line. */
static void next_word(struct cursor *cursor)
{
    while (cursor->at < cursor->end && is_blank(*cursor->at))
        cursor->at++;
    cursor->word = cursor->at;
    while (cursor->at < cursor->end && !is_blank(*cursor->at))
        cursor->at++;
    cursor->length = (int)(cursor->at - cursor->word);
}

/* Goes back before the word read last. */
static void give_back(struct cursor *cursor)
{
    cursor->at = cursor->word;
}

static bool fail(struct cursor *cursor, const char *wanted)
{
    enum { SHOWN = 40 };
    int shown = cursor->length < SHOWN ? cursor->length : SHOWN;
    if (cursor->length == 0)
        snprintf(cursor->fault, TEXT_FAULT_SIZE, "the line ends where %s should stand", wanted);
    else
        snprintf(cursor->fault, TEXT_FAULT_SIZE, "\"%.*s%s\" stands where %s should stand", shown,
                 cursor->word, cursor->length > SHOWN ? "..." : "", wanted);
    return false;
}

static bool is_word(const struct cursor *cursor, const char *text)
{
    int i = 0;
    while (i < cursor->length && text[i] && capital(cursor->word[i]) == capital(text[i]))
        i++;
    return i == cursor->length && text[i] == '\0';
}

/* The next word must be this one. */
static bool take(struct cursor *cursor, const char *text)
{
    char wanted[sizeof "\"multiplier\""];
    snprintf(wanted, sizeof wanted, "\"%s\"", text);
    next_word(cursor);
    return is_word(cursor, text) || fail(cursor, wanted);
}

static bool take_end(struct cursor *cursor)
{
    next_word(cursor);
    return cursor->length == 0 || fail(cursor, "the end of the line");
}

/* A decimal number of digits alone, at most `most`. */
static bool decimal(const char *text, int length, uint32_t most, uint32_t *number)
{
    uint64_t value = 0;
    for (int i = 0; i < length; i++) {
        if (text[i] < '0' || text[i] > '9')
            return false;
        value = 10 * value + (uint64_t)(text[i] - '0');
        if (value > most)
            return false;
    }
    *number = (uint32_t)value;
    return length > 0;
}

static bool take_number(struct cursor *cursor, uint32_t most, const char *wanted,
                        uint32_t *number)
{
    next_word(cursor);
    return decimal(cursor->word, cursor->length, most, number) || fail(cursor, wanted);
}

/* A signed number, as its 32-bit pattern. */
static bool take_signed(struct cursor *cursor, const char *wanted, uint32_t *pattern)
{
    next_word(cursor);
    bool is_negative = cursor->length > 0 && *cursor->word == '-';
    uint32_t most = (uint32_t)INT32_MAX + is_negative;
    if (!decimal(cursor->word + is_negative, cursor->length - is_negative, most, pattern))
        return fail(cursor, wanted);
    *pattern = is_negative ? 0 - *pattern : *pattern;
    return true;
}

/* Exactly so many hexadecimal digits. */
static bool hexadecimal(const struct cursor *cursor, int digits, uint16_t *number)
{
    unsigned value = 0;
    for (int i = 0; i < cursor->length && i < digits; i++) {
        int digit = hex_digit(cursor->word[i]);
        if (digit < 0)
            return false;
        value = value << 4 | (unsigned)digit;
    }
    *number = (uint16_t)value;
    return cursor->length == digits;
}

static bool take_byte(struct cursor *cursor, const char *wanted, uint8_t *byte)
{
    uint16_t number;
    next_word(cursor);
    if (!hexadecimal(cursor, 2, &number))
        return fail(cursor, wanted);
    *byte = (uint8_t)number;
    return true;
}

static bool take_prn(struct cursor *cursor, uint8_t out[2])
{
    uint16_t prn;
    next_word(cursor);
    if (!hexadecimal(cursor, 4, &prn))
        return fail(cursor, "a PRN of four hexadecimal digits");
    out[0] = (uint8_t)(prn >> 8);
    out[1] = (uint8_t)prn;
    return true;
}

/* The form whose name the word starts with, 0 if there is none. */
static uint8_t form_named(const struct cursor *cursor)
{
    for (uint8_t form = FORM_UNM; form <= FORM_LAST; form++) {
        struct cursor name = *cursor;
        name.length = cursor->length < 3 ? 0 : 3;
        if (is_word(&name, form_name(form)))
            return form;
    }
    return 0;
}

/* A SLOT's name, as the four bytes that records have for it. */
static bool take_slot(struct cursor *cursor, uint8_t out[4])
{
    static const char wanted[] = "a SLOT as in UNM-08-101";
    uint32_t width, number;
    next_word(cursor);
    const char *word = cursor->word, *end = word + cursor->length;
    if (cursor->length < 4 || word[3] != '-' || form_named(cursor) == 0)
        return fail(cursor, wanted);
    const char *dash = memchr(word + 4, '-', (size_t)(cursor->length - 4));
    if (!dash || !decimal(word + 4, (int)(dash - word) - 4, UINT8_MAX, &width) ||
        !decimal(dash + 1, (int)(end - dash) - 1, UINT16_MAX, &number))
        return fail(cursor, wanted);
    out[0] = form_named(cursor);
    out[1] = (uint8_t)width;
    out[2] = (uint8_t)(number >> 8);
    out[3] = (uint8_t)number;
    return true;
}

static void put_number(uint8_t *out, size_t size, uint32_t number)
{
    for (size_t i = size; i > 0; number >>= 8)
        out[--i] = (uint8_t)number;
}

/* A raw number, signed for SNM. */
static bool take_raw(struct cursor *cursor, bool is_signed, uint32_t *raw)
{
    if (is_signed)
        return take_signed(cursor, "a raw number from -2147483648 to 2147483647", raw);
    return take_number(cursor, UINT32_MAX, "a raw number from 0 to 4294967295", raw);
}

static bool read_slot(struct cursor *cursor, uint8_t out[SLOT_SIZE])
{
    uint8_t *form = out + SLOT_FORM;
    uint32_t multiplier, divisor, offset, low, high;
    if (!take_slot(cursor, form) || !take(cursor, "multiplier") ||
        !take_number(cursor, UINT16_MAX, "a multiplier from 0 to 65535", &multiplier) ||
        !take(cursor, "divisor") ||
        !take_number(cursor, UINT16_MAX, "a divisor from 1 to 65535", &divisor) ||
        !take(cursor, "offset") ||
        !take_signed(cursor, "an offset from -2147483648 to 2147483647", &offset) ||
        !take(cursor, "raw") || !take_raw(cursor, *form == FORM_SNM, &low) ||
        !take(cursor, "to") || !take_raw(cursor, *form == FORM_SNM, &high))
        return false;
    put_number(out + SLOT_MULTIPLIER, 2, multiplier);
    put_number(out + SLOT_DIVISOR, 2, divisor);
    put_number(out + SLOT_OFFSET, 4, offset);
    put_number(out + SLOT_LOWEST, 4, low);
    put_number(out + SLOT_HIGHEST, 4, high);
    return true;
}

static bool read_prn(struct cursor *cursor, uint8_t out[PRN_SIZE])
{
    return take_prn(cursor, out + PRN_NUMBER) && take_slot(cursor, out + PRN_FORM);
}

/* Whether the next word begins as a hexadecimal number. */
static bool digit_follows(struct cursor *cursor)
{
    next_word(cursor);
    give_back(cursor);
    return cursor->length > 0 && hex_digit(*cursor->word) >= 0;
}

/* "08 6B" with bit H = 0; with H = 1 the target may be left out. */
static bool read_header(struct cursor *cursor, uint8_t out[2])
{
    if (!take(cursor, "header") ||
        !take_byte(cursor, "a first byte of two hexadecimal digits", &out[0]))
        return false;
    if ((out[0] & BIT_H) == 0)
        return take_byte(cursor, "the target, since the first byte has H = 0,", &out[1]);
    return !digit_follows(cursor) ||
           take_byte(cursor, "the target 00 or none, since the first byte has H = 1,", &out[1]);
}

/* "selector 41", "selector 41 0C" or "no selector", as length and bytes. */
static bool read_selector(struct cursor *cursor, uint8_t *length, uint8_t bytes[SELECTOR_MOST])
{
    next_word(cursor);
    if (is_word(cursor, "no"))
        return take(cursor, "selector");
    if (!is_word(cursor, "selector"))
        return fail(cursor, "\"selector\" or \"no selector\"");
    do {
        if (!take_byte(cursor, "a selector byte of two hexadecimal digits", &bytes[*length]))
            return false;
        ++*length;
    } while (*length < SELECTOR_MOST && digit_follows(cursor));
    return !digit_follows(cursor) ||
           fail(cursor, "\"prns\" or \"no prns\", since a selector has at most two bytes,");
}

static bool read_layout(struct cursor *cursor, uint8_t out[LAYOUT_SIZE])
{
    uint8_t *count = out + LAYOUT_COUNT;
    if (!read_header(cursor, out + LAYOUT_FIRST_BYTE) ||
        !read_selector(cursor, out + LAYOUT_SELECTOR_LENGTH, out + LAYOUT_SELECTOR))
        return false;
    next_word(cursor);
    if (is_word(cursor, "no"))
        return take(cursor, "prns");
    if (!is_word(cursor, "prns"))
        return fail(cursor, "\"prns\" or \"no prns\"");
    do {
        if (!take_prn(cursor, out + LAYOUT_PRN_LIST + 2 * *count))
            return false;
        ++*count;
        next_word(cursor);
        give_back(cursor);
    } while (cursor->length > 0 && *count < LAYOUT_PRNS);
    return cursor->length == 0 || fail(cursor, "the end, since a layout has at most 16 PRNs,");
}

/* "header 08 6A length 2". */
static bool read_selector_length(struct cursor *cursor, uint8_t out[SELECTOR_SIZE])
{
    uint32_t length;
    if (!read_header(cursor, out + SELECTOR_FIRST_BYTE) || !take(cursor, "length") ||
        !take_number(cursor, UINT8_MAX, "a length of 0, 1 or 2", &length))
        return false;
    out[SELECTOR_LENGTH] = (uint8_t)length;
    return true;
}

/* Reads the record that the line's first word names. */
static bool read_record(struct cursor *cursor, uint8_t out[LAYOUT_SIZE])
{
    static const struct {
        const char *word;
        uint8_t kind;
        bool (*read)(struct cursor *cursor, uint8_t *out);
    } kinds[] = {{"slot", RECORD_SLOT, read_slot},
                 {"prn", RECORD_PRN, read_prn},
                 {"layout", RECORD_LAYOUT, read_layout},
                 {"selector", RECORD_SELECTOR, read_selector_length}};
    for (size_t i = 0; i < sizeof kinds / sizeof *kinds; i++) {
        if (!is_word(cursor, kinds[i].word))
            continue;
        out[0] = kinds[i].kind;
        return kinds[i].read(cursor, out) && take_end(cursor);
    }
    return fail(cursor, "slot, prn, layout or selector");
}

size_t text_record(const char *line, size_t length, uint8_t out[LAYOUT_SIZE],
                   char fault[TEXT_FAULT_SIZE])
{
    const char *comment = memchr(line, '#', length);
    struct cursor cursor = {line, comment ? comment : line + length, line, 0, fault};
    fault[0] = '\0';
    memset(out, 0, LAYOUT_SIZE);
    next_word(&cursor);
    if (cursor.length == 0 || !read_record(&cursor, out))
        return 0;
    return record_size(out[0]);
}
