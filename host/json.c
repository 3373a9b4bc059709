/* Reports as JSON, one object a line. Nothing of a row is lost: each has its
 * bytes, and a Number its double, as the shortest decimal and as bits, and its
 * fraction. */
#include "output.h"

#include "message.h"
#include "values.h"
#include "words.h"

#include <inttypes.h>
#include <string.h>

static void put_string(const char *text, size_t length)
{
    putchar('"');
    for (size_t i = 0; i < length; i++) {
        unsigned char c = (unsigned char)text[i];
        if (c == '"' || c == '\\')
            printf("\\%c", c);
        else if (c >= 0x20 && c <= 0x7E)
            putchar(c);
        else
            printf("\\u%04X", c);
    }
    putchar('"');
}

/* A member, with a comma before it. */
static void put_text(const char *name, const char *text)
{
    printf(",\"%s\":", name);
    if (text)
        put_string(text, strlen(text));
    else
        fputs("null", stdout);
}

static void put_count(const char *name, uint64_t number)
{
    printf(",\"%s\":%" PRIu64, name, number);
}

static void put_hex(const char *name, const uint8_t *bytes, size_t count)
{
    printf(",\"%s\":\"", name);
    for (size_t i = 0; i < count; i++)
        printf("%02X", bytes[i]);
    putchar('"');
}

static void put_label(const struct label *label)
{
    char text[SLOT_NAME_SIZE];
    if (!label)
        return;
    snprintf(text, sizeof text, "%04X", label->prn);
    put_text("prn", text);
    put_text("table", label->is_sae ? "SAE" : label->is_found ? "supplement" : NULL);
    put_text("name", label->name);
    slot_name(label->slot, text);
    put_text("slot", label->is_found ? text : NULL);
    put_text("unit", label->unit);
}

static void put_number(const struct number *number)
{
    char text[VALUE_SIZE];
    bool is_number = number_text(double_of(number->bits), text);
    printf(",\"value\":%s,\"double\":\"%016" PRIX64 "\"", is_number ? text : "null",
           number->bits);
    printf(",\"above\":%" PRId64 ",\"divisor\":%" PRIu16, number->above, number->divisor);
}

/* The items of a Bits line with what document 003 prints for them. */
static void put_bit_names(const struct row *row, const struct label *label)
{
    size_t count;
    const struct sae_item *items = slot_items(label->slot, &count);
    fputs(",\"items\":[", stdout);
    for (size_t i = 0; i < count; i++) {
        uint32_t bits = item_bits(row->body, &items[i]);
        bool is_one = items[i].first == items[i].last;
        const char *text = bits ? items[i].one : items[i].zero;
        printf("%s{\"first\":%u,\"last\":%u", i ? "," : "", items[i].first, items[i].last);
        put_text("name", items[i].name);
        put_count("bits", bits);
        put_text("text", is_one && *text ? text : NULL);
        putchar('}');
    }
    putchar(']');
}

/* The text of a State; where document 003 prints no state, what it calls the code. */
static void put_state(const struct row *row, const struct label *label)
{
    const char *text = label ? state_text(label->slot, row->body) : NULL;
    const struct sae_gap *gap = label ? state_gap(label->slot, row->body) : NULL;
    put_text("text", text);
    if (gap) {
        fputs(",\"no_state\":true", stdout);
        put_text("called", *gap->called ? gap->called : NULL);
    }
}

/* What a row of State, Bits, Text, Digits or Invalid says. */
static void put_code(const struct row *row, const struct label *label)
{
    char text[VALUE_SIZE];
    put_count("code", row->body);
    if (row->kind == RAKHUBOLE_ROW_STATE)
        put_state(row, label);
    if (row->kind == RAKHUBOLE_ROW_BITS && label)
        put_bit_names(row, label);
    if (row->kind == RAKHUBOLE_ROW_TEXT) {
        characters_text(row->body, text);
        put_text("text", text);
    }
    if (row->kind == RAKHUBOLE_ROW_DIGITS) {
        code_text(row->body, label, text);
        put_text("text", text);
    }
}

/* What a row of Unknown, Left, Answered or verdict says. */
static void put_row_number(const struct row *row)
{
    put_count("number", row->body);
    if (row->kind == RAKHUBOLE_ROW_VERDICT)
        put_text("means", verdict_word((unsigned)row->body));
}

static void put_row(const struct row *row, const struct label *label)
{
    char reason[REASON_SIZE];
    reason_text(row, label, reason);
    printf("{\"kind\":%u", row->kind);
    put_text("word", row_word(row->kind));
    put_label(label);
    if (row->kind == RAKHUBOLE_ROW_NUMBER)
        put_number(&row->number);
    else if (row->kind >= RAKHUBOLE_ROW_STATE && row->kind <= RAKHUBOLE_ROW_INVALID)
        put_code(row, label);
    else if (row->kind != RAKHUBOLE_ROW_SHORT)
        put_row_number(row);
    if (*reason)
        put_text("reason", reason);
    put_hex("row", row->bytes, row->length);
    putchar('}');
}

/* The start of each object. */
static void put_entry(const struct entry *entry)
{
    printf("{\"%s\":%" PRIu64, entry->unit, entry->place);
    put_text("bus", entry->bus->word);
    put_hex("first", entry->runs.first.at, entry->runs.first.count);
    put_hex("response", entry->runs.response.at, entry->runs.response.count);
}

static void json_reading(const struct entry *entry, const struct reading *reading)
{
    put_entry(entry);
    put_count("refusal", 0);
    put_hex("layout_sought", reading->layout.start + LAYOUT_FIRST_BYTE,
            LAYOUT_KEY_SIZE - LAYOUT_FIRST_BYTE);
    fputs(",\"items\":[", stdout);
    for (size_t i = 0; i < reading->count; i++) {
        fputs(i ? "," : "", stdout);
        put_row(&reading->items[i], reading->is_named ? &reading->labels[i] : NULL);
    }
    fputs("],\"remainder\":", stdout);
    put_row(&reading->remainder, NULL);
    fputs(",\"answer\":", stdout);
    put_row(&reading->response, NULL);
    fputs(",\"verdict\":", stdout);
    put_row(&reading->verdict, NULL);
    fputs("}\n", stdout);
}

static void json_refused(const struct entry *entry, unsigned refusal)
{
    put_entry(entry);
    put_count("refusal", refusal);
    put_text("reason", refusal_words(refusal));
    fputs("}\n", stdout);
}

static void json_damaged(const struct entry *entry)
{
    put_entry(entry);
    fputs(",\"refusal\":null,\"adapter\":", stdout);
    put_string(entry->text, entry->length);
    put_text("reason", entry->words);
    fputs("}\n", stdout);
}

/* Objects are for frames; the rest is said on the error output. */
static void json_passed(const struct entry *entry)
{
    complain("%s %" PRIu64 " passed over: \"%.*s\", %s", entry->unit, entry->place,
             (int)entry->length, entry->text, entry->words);
}

static void json_end(const struct tally *tally)
{
    (void)tally;
}

const struct output json_output = {json_reading, json_refused, json_damaged, json_passed,
                                   json_end};
