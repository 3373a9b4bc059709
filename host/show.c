/* rakhubole show: a supplement as text that rakhubole compile takes back. */
#include "commands.h"
#include "load.h"
#include "message.h"
#include "names.h"
#include "summary.h"
#include "words.h"

#include <inttypes.h>
#include <stdio.h>

static void put_slot(const struct record *record)
{
    const uint8_t *bytes = record->bytes;
    const uint8_t *lowest = bytes + SLOT_LOWEST, *highest = bytes + SLOT_HIGHEST;
    char name[SLOT_NAME_SIZE];
    slot_name(slot_key_of(record), name);
    printf("slot %s multiplier %u divisor %u offset %" PRId32, name,
           number16(bytes + SLOT_MULTIPLIER), number16(bytes + SLOT_DIVISOR),
           signed32(bytes + SLOT_OFFSET));
    if (slot_key_of(record).form == FORM_SNM)
        printf(" raw %" PRId32 " to %" PRId32 "\n", signed32(lowest), signed32(highest));
    else
        printf(" raw %" PRIu32 " to %" PRIu32 "\n", number32(lowest), number32(highest));
}

static void put_prn(const struct record *record)
{
    char name[SLOT_NAME_SIZE];
    slot_name(slot_key_of(record), name);
    printf("prn %04X %s\n", number16(record->bytes + PRN_NUMBER), name);
}

/* A comment that says what the PRN is. */
static void put_label(const struct label *label)
{
    char name[SLOT_NAME_SIZE];
    slot_name(label->slot, name);
    printf("#   %04X  ", label->prn);
    if (label->name)
        printf("%s%s%s, %s\n", label->name, label->unit ? ", " : "",
               label->unit ? label->unit : "", name);
    else if (label->is_found)
        printf("of this supplement, %s\n", name);
    else
        puts("in neither table");
}

static void put_layout(const struct supplement *supplement, const struct record *record)
{
    size_t count = record->bytes[LAYOUT_COUNT];
    char key[LAYOUT_TEXT_SIZE];
    layout_key_text(record->bytes, key);
    printf("layout %s%s", key, count ? " prns" : " no prns");
    for (size_t i = 0; i < count; i++)
        printf(" %04X", layout_prn(record, i));
    putchar('\n');
    for (size_t i = 0; i < count; i++) {
        struct label label = label_of(supplement, layout_prn(record, i));
        put_label(&label);
    }
}

static void put_selector_length(const struct record *record)
{
    char header[HEADER_TEXT_SIZE];
    header_text(record->bytes + SELECTOR_FIRST_BYTE, header);
    printf("selector %s length %u\n", header, record->bytes[SELECTOR_LENGTH]);
}

static void put_record(const struct supplement *supplement, const struct record *record)
{
    switch (record->bytes[0]) {
    case RECORD_SLOT: put_slot(record); break;
    case RECORD_PRN: put_prn(record); break;
    case RECORD_LAYOUT: put_layout(supplement, record); break;
    default: put_selector_length(record);
    }
}

int command_show(const struct arguments *arguments)
{
    struct supplement supplement;
    int status = supplement_accept(&supplement, arguments->operands[0]);
    if (status != STATUS_DONE)
        return status;
    put_summary(stdout, &supplement, "# ");
    puts("# Names are document 003's: shown, not proved.");
    struct record record = {0, 0, 0, NULL};
    while (record_next(&supplement, &record))
        put_record(&supplement, &record);
    return STATUS_DONE;
}
