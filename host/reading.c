#include "reading.h"

#include <string.h>

/* The bytes of a row's body by its kind. */
static size_t body_size(uint8_t kind)
{
    switch (kind) {
    case RAKHUBOLE_ROW_NUMBER: return RAKHUBOLE_NUMBER_BODY;
    case RAKHUBOLE_ROW_STATE:
    case RAKHUBOLE_ROW_BITS:
    case RAKHUBOLE_ROW_TEXT:
    case RAKHUBOLE_ROW_DIGITS:
    case RAKHUBOLE_ROW_INVALID: return RAKHUBOLE_CODE_BODY;
    case RAKHUBOLE_ROW_SHORT: return RAKHUBOLE_SHORT_BODY;
    default: return RAKHUBOLE_OTHER_BODY;
    }
}

/* How large the whole number above the line can be. Much larger ones would not
 * be exact for those who read JSON numbers as doubles. */
static const int64_t ABOVE_MOST = INT64_C(1) << 49;

/* Takes a Number's body apart; false if its fraction is outside its limits. */
static bool take_number(struct number *number, const uint8_t *body)
{
    *number = (struct number){number64(body + RAKHUBOLE_NUMBER_DOUBLE),
                              signed64(body + RAKHUBOLE_NUMBER_ABOVE),
                              number16(body + RAKHUBOLE_NUMBER_DIVISOR)};
    return number->above >= -ABOVE_MOST && number->above <= ABOVE_MOST && number->divisor != 0;
}

/* Takes the row at the start of the bytes apart. */
static bool take_row(struct row *row, const uint8_t *bytes, size_t rest)
{
    if (rest == 0 || bytes[0] < RAKHUBOLE_ROW_NUMBER || bytes[0] > RAKHUBOLE_ROW_VERDICT)
        return false;
    *row = (struct row){.kind = bytes[0], .bytes = bytes, .length = 1 + body_size(bytes[0])};
    if (row->length > rest)
        return false;
    if (row->kind == RAKHUBOLE_ROW_NUMBER)
        return take_number(&row->number, bytes + 1);
    for (size_t i = 1; i < row->length; i++)
        row->body = row->body << 8 | bytes[i];
    return true;
}

/* The rows in their order: items, remainder, response, verdict. */
static bool take_rows(struct reading *reading, size_t length)
{
    enum { LAST_ROWS = 3 };
    struct row rows[RAKHUBOLE_ITEMS_MOST + LAST_ROWS];
    size_t count = 0;
    for (size_t place = 0; place < length; place += rows[count++].length)
        if (count == RAKHUBOLE_ITEMS_MOST + LAST_ROWS ||
            !take_row(&rows[count], reading->rows + place, length - place))
            return false;
    if (count < LAST_ROWS)
        return false;
    reading->count = count - LAST_ROWS;
    memcpy(reading->items, rows, reading->count * sizeof *rows);
    reading->remainder = rows[count - 3];
    reading->response = rows[count - 2];
    reading->verdict = rows[count - 1];
    return reading->verdict.kind == RAKHUBOLE_ROW_VERDICT;
}

/* Names the lines by the layout, if it has as many PRNs as there are lines. */
static void name_lines(struct reading *reading, const struct bus *bus,
                       const struct supplement *supplement, const struct runs *runs)
{
    uint64_t answer = bus->read(runs);
    size_t header = RAKHUBOLE_READ_HEADER(answer);
    reading->response_length = RAKHUBOLE_READ_RESPONSE(answer);
    reading->layout = layout_sought(supplement, runs->first.at, header, runs->first.at + header,
                                    RAKHUBOLE_READ_DATA(answer));
    reading->is_named = reading->layout.count == reading->count;
    for (size_t i = 0; reading->is_named && i < reading->count; i++)
        reading->labels[i] = label_of(supplement, reading->layout.prns[i]);
}

int reading_make(struct reading *reading, const struct bus *bus,
                 const struct supplement *supplement, const struct runs *runs)
{
    uint64_t answer = bus->report(supplement, runs, reading->rows);
    if (RAKHUBOLE_REFUSAL(answer) != 0)
        return (int)RAKHUBOLE_REFUSAL(answer);
    size_t length = RAKHUBOLE_ROWS_LENGTH(answer);
    if (length > sizeof reading->rows || !take_rows(reading, length))
        return -1;
    name_lines(reading, bus, supplement, runs);
    return 0;
}
