/* Reports as tables for people. */
#include "output.h"

#include "message.h"
#include "terminal.h"
#include "values.h"
#include "words.h"

#include <inttypes.h>
#include <string.h>

/* The column of PRNs and of the words below them. */
enum { FIRST_COLUMN = 8 };

static enum color line_color(const struct row *row)
{
    bool is_left = row->kind == RAKHUBOLE_ROW_LEFT && row->body != 0;
    if (row->kind == RAKHUBOLE_ROW_INVALID || row->kind == RAKHUBOLE_ROW_SHORT || is_left)
        return COLOR_RED;
    return row->kind == RAKHUBOLE_ROW_UNKNOWN ? COLOR_GREY : COLOR_NONE;
}

static enum color verdict_color(unsigned verdict)
{
    if (verdict == RAKHUBOLE_CLEAR)
        return COLOR_GREEN;
    return verdict == RAKHUBOLE_FLAGGED ? COLOR_RED : COLOR_GREY;
}

/* What stands in the column of names; for a PRN of the supplement it is made. */
enum { MADE_NAME_SIZE = 48 };
static const char *name_of(const struct label *label, char made[MADE_NAME_SIZE])
{
    char slot[SLOT_NAME_SIZE];
    if (!label)
        return "not named";
    if (label->name)
        return label->name;
    if (!label->is_found)
        return "in neither table";
    slot_name(label->slot, slot);
    snprintf(made, MADE_NAME_SIZE, "of the supplement, %s", slot);
    return made;
}

/* A code with the text of its state, or with word that document 003 has none. */
static void put_state(const struct row *row, const struct label *label, const char *code)
{
    const char *text = label ? state_text(label->slot, row->body) : NULL;
    const struct sae_gap *gap = label ? state_gap(label->slot, row->body) : NULL;
    printf("state %sh%s%s", code, text ? ": " : "", text ? text : "");
    if (gap)
        fputs(": document 003 prints no state for this code", stdout);
    if (gap && *gap->called)
        printf(" (called %s)", gap->called);
}

/* A Number as its fraction or as the shortest decimal. */
static void put_number(const struct number *number, bool is_exact)
{
    char text[VALUE_SIZE];
    if (is_exact)
        snprintf(text, sizeof text, "%" PRId64 "/%" PRIu16, number->above, number->divisor);
    else
        number_text(double_of(number->bits), text);
    fputs(text, stdout);
}

/* What an item line says, without its unit. */
static void put_item(const struct row *row, const struct label *label, bool is_exact)
{
    char code[VALUE_SIZE], text[VALUE_SIZE], reason[REASON_SIZE];
    code_text(row->body, label, code);
    reason_text(row, label, reason);
    switch (row->kind) {
    case RAKHUBOLE_ROW_NUMBER:
        put_number(&row->number, is_exact);
        break;
    case RAKHUBOLE_ROW_STATE:
        put_state(row, label, code);
        break;
    case RAKHUBOLE_ROW_BITS:
        bits_text(row->body, label, text);
        printf("bits %s", text);
        break;
    case RAKHUBOLE_ROW_TEXT:
        characters_text(row->body, text);
        printf("\"%s\"", text);
        break;
    case RAKHUBOLE_ROW_DIGITS:
        fputs(code, stdout);
        break;
    case RAKHUBOLE_ROW_INVALID:
        printf("Invalid, raw %sh: %s", code, reason);
        break;
    case RAKHUBOLE_ROW_SHORT:
        printf("Short: %s", reason);
        break;
    default:
        printf("Unknown %u: %s", (unsigned)row->body, reason);
    }
}

/* The items of a Bits line below it; those without a meaning only if set. */
static void put_bit_names(const struct row *row, const struct label *label, int column)
{
    size_t count;
    const struct sae_item *items = slot_items(label->slot, &count);
    for (size_t i = 0; i < count; i++) {
        uint32_t bits = item_bits(row->body, &items[i]);
        bool is_one = items[i].first == items[i].last;
        if (!*items[i].one && bits == 0)
            continue;
        printf("%*s%s", column, "", items[i].name);
        if (!*items[i].one)
            printf(" (item %u)", items[i].first);
        fputs(": ", stdout);
        if (is_one && *items[i].one)
            puts(bits ? items[i].one : items[i].zero);
        else
            for (int bit = items[i].last - items[i].first; bit >= 0; bit--)
                printf(bit ? "%u" : "%u\n", bits >> bit & 1);
    }
}

/* The label of an item line, or NULL. */
static const struct label *label_at(const struct reading *reading, size_t i)
{
    return reading->is_named ? &reading->labels[i] : NULL;
}

/* One item line: PRN, name, value and unit. */
static void put_item_line(const struct row *row, const struct label *label, int widest,
                          bool is_exact)
{
    char prn[sizeof "FFFF"] = "?", made[MADE_NAME_SIZE];
    bool has_unit = row->kind == RAKHUBOLE_ROW_NUMBER || row->kind == RAKHUBOLE_ROW_TEXT;
    if (label)
        snprintf(prn, sizeof prn, "%04X", label->prn);
    printf("  %-*s  %-*s  %s", FIRST_COLUMN, prn, widest, name_of(label, made),
           color_on(line_color(row)));
    put_item(row, label, is_exact);
    fputs(color_off(line_color(row)), stdout);
    if (has_unit && label && label->unit)
        printf(" %s", label->unit);
    putchar('\n');
    if (label && row->kind == RAKHUBOLE_ROW_BITS)
        put_bit_names(row, label, FIRST_COLUMN + widest + 8);
}

static void put_items(const struct reading *reading, bool is_exact)
{
    char made[MADE_NAME_SIZE];
    size_t widest = 0;
    for (size_t i = 0; i < reading->count; i++) {
        size_t length = strlen(name_of(label_at(reading, i), made));
        widest = length > widest ? length : widest;
    }
    if (reading->count)
        printf("  %-*s  %-*s  value\n", FIRST_COLUMN, "PRN", (int)widest, "name");
    for (size_t i = 0; i < reading->count; i++)
        put_item_line(&reading->items[i], label_at(reading, i), (int)widest, is_exact);
}

static void put_remainder(const struct reading *reading)
{
    const struct row *row = &reading->remainder;
    char key[LAYOUT_TEXT_SIZE];
    layout_key_text(reading->layout.start, key);
    printf("  %-*s  %s", FIRST_COLUMN, "rest", color_on(line_color(row)));
    if (row->kind != RAKHUBOLE_ROW_LEFT)
        put_item(row, NULL, false);
    else if (row->body == 0)
        fputs("nothing left over", stdout);
    else
        printf("%u bits left over that no item accounts for", (unsigned)row->body);
    if (row->kind == RAKHUBOLE_ROW_UNKNOWN && row->body == RAKHUBOLE_UNKNOWN_LAYOUT)
        printf(" (%s)", key);
    printf("%s\n", color_off(line_color(row)));
}

static void put_response(const struct entry *entry, const struct reading *reading)
{
    const struct row *row = &reading->response;
    printf("  %-*s  %s", FIRST_COLUMN, "response", color_on(line_color(row)));
    if (reading->response_length == 0)
        fputs("none", stdout);
    put_bytes(stdout, entry->runs.response.at, reading->response_length);
    fputs(", ", stdout);
    if (row->kind == RAKHUBOLE_ROW_ANSWERED)
        printf("kind %u: %s", (unsigned)row->body,
               bus_response_words(entry->bus, (unsigned)row->body));
    else
        put_item(row, NULL, false);
    printf("%s\n", color_off(line_color(row)));
}

static void put_place(const struct entry *entry)
{
    printf("%s %" PRIu64, entry->unit, entry->place);
}

static void put_entry(const struct entry *entry)
{
    put_place(entry);
    if (entry->runs.first.count + entry->runs.response.count)
        fputs(": ", stdout);
    put_runs(stdout, entry->runs.first.at, entry->runs.first.count, entry->runs.response.at,
             entry->runs.response.count);
    putchar('\n');
}

static void put_reading(const struct entry *entry, const struct reading *reading, bool is_exact)
{
    unsigned verdict = (unsigned)reading->verdict.body;
    enum color color = verdict_color(verdict);
    put_entry(entry);
    put_items(reading, is_exact);
    put_remainder(reading);
    put_response(entry, reading);
    printf("  %-*s  %s%s: %s%s\n\n", FIRST_COLUMN, "verdict", color_on(color),
           verdict_word(verdict), verdict_reason(verdict), color_off(color));
}

static void table_reading(const struct entry *entry, const struct reading *reading)
{
    put_reading(entry, reading, false);
}

static void exact_reading(const struct entry *entry, const struct reading *reading)
{
    put_reading(entry, reading, true);
}

static void table_refused(const struct entry *entry, unsigned refusal)
{
    put_entry(entry);
    printf("  %srefused: %s (%u)%s\n\n", color_on(COLOR_RED), refusal_words(refusal), refusal,
           color_off(COLOR_RED));
}

/* What the adapter says, and what that means. */
static void put_saying(const struct entry *entry)
{
    fputs(": \"", stdout);
    put_safely(stdout, entry->text, entry->length);
    printf("\", %s", entry->words);
}

static void table_damaged(const struct entry *entry)
{
    put_place(entry);
    fputs(color_on(COLOR_RED), stdout);
    put_saying(entry);
    printf("%s\n", color_off(COLOR_RED));
}

static void table_passed(const struct entry *entry)
{
    put_place(entry);
    fputs(" passed over", stdout);
    put_saying(entry);
    putchar('\n');
}

static void table_end(const struct tally *tally)
{
    size_t frames = tally->clear + tally->flagged + tally->unknown + tally->refused;
    printf("%zu frame%s: %zu Clear, %zu Flagged, %zu Unknown, %zu refused", frames,
           frames == 1 ? "" : "s", tally->clear, tally->flagged, tally->unknown, tally->refused);
    if (tally->damaged)
        printf("; %zu damaged or lost by the adapter's word", tally->damaged);
    if (tally->records)
        printf("; %zu damaged record%s", tally->records, tally->records == 1 ? "" : "s");
    if (tally->passed)
        printf("; %zu line%s passed over", tally->passed, tally->passed == 1 ? "" : "s");
    putchar('\n');
}

const struct output table_output = {table_reading, table_refused, table_damaged, table_passed,
                                    table_end};
const struct output exact_output = {exact_reading, table_refused, table_damaged, table_passed,
                                    table_end};
