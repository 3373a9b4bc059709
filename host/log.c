#include "log.h"

#include "adapter.h"
#include "text.h"

#include <errno.h>
#include <string.h>

/* One digit less than the shortest frame with a header of three bytes. */
enum { COMMAND_DIGITS = 7 };

static void trim(struct entry *entry)
{
    while (entry->length > 0 && is_blank(entry->text[0])) {
        entry->text++;
        entry->length--;
    }
    while (entry->length > 0 && is_blank(entry->text[entry->length - 1]))
        entry->length--;
}

/* Adapters put in zero bytes now and then; they mean nothing. */
static void drop_zeros(struct lines *lines)
{
    size_t kept = 0;
    for (size_t i = 0; i < lines->length; i++)
        if (lines->text[i] != '\0')
            lines->text[kept++] = lines->text[i];
    lines->length = kept;
}

/* Takes comment, blanks and prompts away. Whether there was a prompt. */
static bool strip(struct entry *entry)
{
    const char *comment = memchr(entry->text, '#', entry->length);
    bool has_prompt = false;
    if (comment)
        entry->length = (size_t)(comment - entry->text);
    trim(entry);
    while (entry->length > 0 && entry->text[0] == '>') {
        entry->text++;
        entry->length--;
        trim(entry);
        has_prompt = true;
    }
    return has_prompt;
}

/* Whether digits behind a prompt are what was typed, not what was received:
 * fewer than most frames have, and no frame to the library. */
static bool is_command(const struct entry *entry)
{
    size_t digits = 0;
    for (size_t i = 0; i < entry->length; i++)
        if (hex_digit(entry->text[i]) >= 0)
            digits++;
        else if (!is_blank(entry->text[i]))
            return false;
    return digits <= COMMAND_DIGITS && !bus_accepts(entry->bus, &entry->runs);
}

/* What a line is that holds something: a frame, a frame with a mark of the
 * adapter behind it, or another line of the adapter. */
static void read_entry(struct entry *entry, bool has_prompt)
{
    const char *mark = memchr(entry->text, '<', entry->length);
    size_t before = mark ? (size_t)(mark - entry->text) : 0;
    const char *fault =
        bus_runs_read(entry->bus, &entry->runs, entry->text, mark ? before : entry->length);
    const struct saying *saying = adapter_saying(entry->text + before, entry->length - before);
    entry->kind = ENTRY_FAULT;
    entry->words = fault ? fault : "the mark behind the frame is not known";
    if (has_prompt && !mark && is_command(entry)) {
        entry->kind = ENTRY_PASSED;
        entry->words = "taken for a command to the adapter";
    } else if (!fault && !mark) {
        entry->kind = ENTRY_FRAME;
    } else if (saying && (!fault || !mark)) {
        entry->kind = saying->is_damage ? ENTRY_DAMAGED : ENTRY_PASSED;
        entry->words = saying->words;
    }
}

/* What there is when no line could be read. */
static void read_end(struct entry *entry, enum line_answer answer)
{
    switch (answer) {
    case LINE_NONE:
        entry->kind = ENTRY_NONE;
        break;
    case LINE_UNREADABLE:
        entry->kind = ENTRY_UNREADABLE;
        entry->words = strerror(errno);
        break;
    default:
        entry->kind = ENTRY_FAULT;
        entry->words = "longer than 4,096 characters";
    }
}

void log_next(struct lines *lines, const struct bus *bus, struct entry *entry)
{
    for (;;) {
        enum line_answer answer = lines_next(lines);
        drop_zeros(lines);
        *entry = (struct entry){.bus = bus, .unit = "line", .place = lines->number,
                                .text = lines->text, .length = lines->length};
        if (answer != LINE_READ) {
            read_end(entry, answer);
            return;
        }
        bool has_prompt = strip(entry);
        if (entry->length > 0) {
            read_entry(entry, has_prompt);
            return;
        }
    }
}
