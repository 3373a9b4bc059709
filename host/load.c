#include "load.h"

#include "files.h"
#include "message.h"
#include "rakhubole.h"
#include "refusal.h"

#include <errno.h>
#include <string.h>

int supplement_load(struct supplement *supplement, const char *path)
{
    FILE *file = open_to_read(path);
    if (!file)
        return STATUS_USAGE;
    supplement->length = fread(supplement->bytes, 1, SUPPLEMENT_MOST + 1, file);
    int fault = ferror(file) ? errno : 0;
    close_read(file);
    if (!fault)
        return STATUS_DONE;
    complain("%s: %s", shown_path(path), strerror(fault));
    return STATUS_USAGE;
}

int supplement_accept(struct supplement *supplement, const char *path)
{
    int status = supplement_load(supplement, path);
    if (status != STATUS_DONE)
        return status;
    uint64_t answer = rakhubole_supplement_check(supplement->bytes, supplement->length);
    if (RAKHUBOLE_REFUSAL(answer) == 0)
        return STATUS_DONE;
    char words[FAULT_SIZE];
    supplement_fault(supplement, answer, words);
    complain("%s is refused: %s", shown_path(path), words);
    const char *earlier = earlier_form_words(supplement);
    if (earlier)
        complain("%s %s", shown_path(path), earlier);
    return STATUS_REFUSED;
}
