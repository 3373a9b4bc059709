#include "summary.h"

#include "names.h"
#include "words.h"

/* How many records there are, by kind, and SLOTs by form. */
struct census {
    size_t records, slots, prns, layouts, selectors;
    size_t by_form[FORM_LAST + 1];
};

static struct census census_of(const struct supplement *supplement)
{
    struct census census = {0, 0, 0, 0, 0, {0}};
    struct record record = {0, 0, 0, NULL};
    while (record_next(supplement, &record)) {
        census.records++;
        census.slots += record.bytes[0] == RECORD_SLOT;
        census.prns += record.bytes[0] == RECORD_PRN;
        census.layouts += record.bytes[0] == RECORD_LAYOUT;
        census.selectors += record.bytes[0] == RECORD_SELECTOR;
        if (record.bytes[0] == RECORD_SLOT && form_name(slot_key_of(&record).form))
            census.by_form[slot_key_of(&record).form]++;
    }
    return census;
}

static void put_count(FILE *file, size_t count, const char *what)
{
    fprintf(file, "%zu %s%s", count, what, count == 1 ? "" : "s");
}

static void put_forms(FILE *file, const struct census *census)
{
    const char *between = ": ";
    for (unsigned form = FORM_UNM; form <= FORM_LAST; form++) {
        if (census->by_form[form] == 0)
            continue;
        fprintf(file, "%s%zu %s", between, census->by_form[form], form_name(form));
        between = ", ";
    }
}

/* Marks the PRNs that layouts name. */
static void mark_prns(const struct supplement *supplement, bool *is_named)
{
    struct record record = {0, 0, 0, NULL};
    while (record_next(supplement, &record))
        for (size_t i = 0; record.bytes[0] == RECORD_LAYOUT && i < record.bytes[LAYOUT_COUNT]; i++)
            is_named[layout_prn(&record, i)] = true;
}

/* So few that a line of text is never longer than compile takes. */
enum { PRNS_A_LINE = 16 };

static void put_missing_prns(FILE *file, const struct supplement *supplement, const char *before)
{
    bool is_named[UINT16_MAX + 1] = {false};
    size_t count = 0;
    mark_prns(supplement, is_named);
    for (size_t prn = 0; prn <= UINT16_MAX; prn++) {
        if (!is_named[prn] || label_of(supplement, (uint16_t)prn).is_found)
            continue;
        if (count == 0)
            fprintf(file, "%slayouts name PRNs that are in neither table, Unknown 1:", before);
        else if (count % PRNS_A_LINE == 0)
            fprintf(file, "\n%s ", before);
        count++;
        fprintf(file, " %04X", (unsigned)prn);
    }
    if (count)
        putc('\n', file);
}

/* Names a layout that no frame uses, or only one whose data end with the selector. */
static void put_idle_layout(FILE *file, const struct supplement *supplement,
                            const struct record *record, const char *before)
{
    struct selector_length header =
        selector_length_of(supplement, record->bytes + LAYOUT_FIRST_BYTE);
    size_t length = record->bytes[LAYOUT_SELECTOR_LENGTH];
    bool has_items = record->bytes[LAYOUT_COUNT] > 0;
    if (length == header.bytes || (length < header.bytes && !has_items))
        return;
    char key[LAYOUT_TEXT_SIZE];
    layout_key_text(record->bytes, key);
    fprintf(file, "%slayout %s %s: this header's selector length is %zu%s\n", before, key,
            length > header.bytes ? "is never used" : "never has data for its items",
            header.bytes, header.is_said ? "" : ", since none is given");
}

static void put_idle_layouts(FILE *file, const struct supplement *supplement, const char *before)
{
    struct record record = {0, 0, 0, NULL};
    while (record_next(supplement, &record))
        if (record.bytes[0] == RECORD_LAYOUT)
            put_idle_layout(file, supplement, &record, before);
}

void put_summary(FILE *file, const struct supplement *supplement, const char *before)
{
    struct census census = census_of(supplement);
    fputs(before, file);
    put_count(file, supplement->length, "byte");
    fputs(", ", file);
    put_count(file, census.records, "record");
    fprintf(file, "\n%s", before);
    put_count(file, census.slots, "SLOT");
    put_forms(file, &census);
    fprintf(file, "\n%s", before);
    put_count(file, census.prns, "PRN");
    fprintf(file, "\n%s", before);
    put_count(file, census.layouts, "layout");
    fprintf(file, "\n%s", before);
    put_count(file, census.selectors, "selector length");
    putc('\n', file);
    put_missing_prns(file, supplement, before);
    put_idle_layouts(file, supplement, before);
}
