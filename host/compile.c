/* rakhubole compile: a supplement from its text. */
#include "commands.h"
#include "files.h"
#include "lines.h"
#include "message.h"
#include "rakhubole.h"
#include "refusal.h"
#include "summary.h"
#include "text_record.h"
#include "words.h"
#include "write_file.h"

#include <errno.h>
#include <string.h>

/* The records and the line of each. */
struct draft {
    struct supplement supplement;
    size_t lines[SUPPLEMENT_MOST / SELECTOR_SIZE + 1]; /* no record is shorter */
    size_t count;
};

/* Adds the record of a line, if it has one. */
static bool add_line(struct draft *draft, const struct lines *lines, const char *path)
{
    uint8_t record[LAYOUT_SIZE];
    char fault[TEXT_FAULT_SIZE];
    size_t size = text_record(lines->text, lines->length, record, fault);
    if (fault[0]) {
        complain("%s line %zu: %s", path, lines->number, fault);
        return false;
    }
    if (size == 0)
        return true;
    memcpy(draft->supplement.bytes + draft->supplement.length, record, size);
    draft->supplement.length += size;
    draft->lines[draft->count++] = lines->number;
    return true;
}

/* Reads the text up to its end, or to the record that passes the limit. */
static int read_text(struct draft *draft, FILE *file, const char *path)
{
    struct lines lines;
    enum line_answer answer = LINE_NONE;
    lines_start(&lines, file);
    while (draft->supplement.length <= SUPPLEMENT_MOST &&
           (answer = lines_next(&lines)) == LINE_READ)
        if (!add_line(draft, &lines, path))
            return STATUS_REFUSED;
    if (answer == LINE_TOO_LONG) {
        complain("%s line %zu: longer than %d characters", path, lines.number, LINE_MOST);
        return STATUS_REFUSED;
    }
    if (answer == LINE_UNREADABLE) {
        complain("%s: %s", path, strerror(errno));
        return STATUS_USAGE;
    }
    return STATUS_DONE;
}

/* Names the line of the record that the library refuses. */
static void complain_of_record(const struct draft *draft, uint64_t answer, const char *path)
{
    char title[RECORD_TITLE_SIZE], fault[RECORD_FAULT_SIZE];
    unsigned refusal = RAKHUBOLE_REFUSAL(answer);
    struct record record = record_at(&draft->supplement, RAKHUBOLE_PLACE(answer));
    size_t line = draft->lines[record.number - 1];
    record_title(&record, title);
    record_fault(&record, refusal, fault);
    if (refusal == RAKHUBOLE_KEY_TWICE)
        complain("%s line %zu, %s: %s: line %zu", path, line, title, fault,
                 draft->lines[record_alike(&draft->supplement, &record).number - 1]);
    else
        complain("%s line %zu, %s: %s", path, line, title, fault);
}

static int accept_draft(const struct draft *draft, const char *path)
{
    uint64_t answer =
        rakhubole_supplement_check(draft->supplement.bytes, draft->supplement.length);
    unsigned refusal = RAKHUBOLE_REFUSAL(answer);
    if (refusal == 0)
        return STATUS_DONE;
    if (refusal == RAKHUBOLE_SUPPLEMENT_TOO_LONG)
        complain("%s line %zu: with this record %s (%u)", path, draft->lines[draft->count - 1],
                 refusal_words(refusal), refusal);
    else
        complain_of_record(draft, answer, path);
    return STATUS_REFUSED;
}

int command_compile(const struct arguments *arguments)
{
    const char *text = arguments->operands[0], *target = arguments->operands[1];
    struct draft draft;
    draft.supplement.length = draft.count = 0;
    FILE *file = is_target(target, "supplement", text, "text") ? open_to_read(text) : NULL;
    if (!file)
        return STATUS_USAGE;
    int status = read_text(&draft, file, shown_path(text));
    close_read(file);
    if (status == STATUS_DONE)
        status = accept_draft(&draft, shown_path(text));
    if (status == STATUS_DONE)
        status = write_file(target, draft.supplement.bytes, draft.supplement.length);
    if (status != STATUS_DONE)
        return status;
    put_safely(stdout, target, strlen(target));
    puts(": written");
    put_summary(stdout, &draft.supplement, "  ");
    return STATUS_DONE;
}
