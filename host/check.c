/* rakhubole check: whether the library accepts a supplement, and what it holds. */
#include "commands.h"
#include "files.h"
#include "hex.h"
#include "load.h"
#include "message.h"
#include "rakhubole.h"
#include "refusal.h"
#include "summary.h"

#include <string.h>

static void put_refusal(const struct supplement *supplement, uint64_t answer)
{
    char words[FAULT_SIZE];
    supplement_fault(supplement, answer, words);
    printf(": refused\n  %s\n", words);
    const char *earlier = earlier_form_words(supplement);
    if (earlier)
        printf("  it %s\n", earlier);
    if (RAKHUBOLE_REFUSAL(answer) == RAKHUBOLE_SUPPLEMENT_TOO_LONG)
        return;
    struct record record = record_at(supplement, RAKHUBOLE_PLACE(answer));
    fputs("  bytes ", stdout);
    put_bytes(stdout, record.bytes, record.length);
    putchar('\n');
}

int command_check(const struct arguments *arguments)
{
    const char *path = arguments->operands[0];
    struct supplement supplement;
    int status = supplement_load(&supplement, path);
    if (status != STATUS_DONE)
        return status;
    uint64_t answer = rakhubole_supplement_check(supplement.bytes, supplement.length);
    put_safely(stdout, shown_path(path), strlen(shown_path(path)));
    if (RAKHUBOLE_REFUSAL(answer) != 0) {
        put_refusal(&supplement, answer);
        return STATUS_REFUSED;
    }
    puts(": accepted");
    if (supplement.length == 0)
        puts("  an empty supplement: the SAE tables alone, and no layout");
    put_summary(stdout, &supplement, "  ");
    return STATUS_DONE;
}
