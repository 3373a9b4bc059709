#include "adapter.h"

#include "text.h"

#include <string.h>

static const struct saying sayings[] = {
    {"<DATA ERROR", "", true, "the adapter marks the line as damaged"},
    {"<RX ERROR", "", true, "the adapter marks the line as damaged"},
    {"DATA ERROR", "", true, "the adapter read a damaged frame"},
    {"BUS ERROR", "", true, "the adapter met a fault on the bus"},
    {"BUFFER FULL", "", true, "the adapter's buffer was full and frames are lost"},
    {"NO DATA", "", false, "no answer came"},
    {"OK", "", false, "the adapter has done a command"},
    {"?", "", false, "the adapter does not know a command"},
    {"AT", NULL, false, "a command to the adapter"},
    {"SEARCHING", ".", false, "the adapter looks for the bus"},
    {"BUS INIT", " :.OK", false, "the adapter starts the bus"},
    {"BUS INIT", " :.OKER", false, "the adapter could not start the bus"},
    /* ISO 9141-2 has no other pairs */
    {"1:08 2:08", "", false, "the key words with which the bus started"},
    {"1:94 2:94", "", false, "the key words with which the bus started"},
    {"UNABLE TO CONNECT", "", false, "the adapter finds no bus"},
    {"BUS BUSY", "", false, "the bus was too busy to send"},
    {"FB ERROR", "", false, "what the adapter sent did not come back"},
    {"STOPPED", "", false, "the adapter was stopped"},
    {"LV RESET", "", false, "the adapter started again for want of voltage"},
    {"LP ALERT", "", false, "the adapter goes to sleep"},
    {"ACT ALERT", "", false, "the adapter was idle for long"},
    {"ELM3", NULL, false, "the adapter's name"},
    {"SAE J1850", " PVWM", false, "the bus that the adapter uses"},
    {"ISO 9141-2", "", false, "the bus that the adapter uses"},
    {"AUTO, ISO 9141-2", "", false, "the bus that the adapter uses"},
    {"AUTO", " ,SAEJ1850PVWM", false, "the bus that the adapter uses"}};

/* Whether the text starts so, and what follows it may follow. */
static bool is_saying(const char *text, size_t length, const struct saying *saying)
{
    size_t i = 0;
    while (i < length && saying->text[i] && capital(text[i]) == saying->text[i])
        i++;
    if (saying->text[i] != '\0')
        return false;
    while (saying->more && i < length && strchr(saying->more, capital(text[i])))
        i++;
    return !saying->more || i == length;
}

const struct saying *adapter_saying(const char *text, size_t length)
{
    for (size_t i = 0; i < sizeof sayings / sizeof *sayings; i++)
        if (is_saying(text, length, &sayings[i]))
            return &sayings[i];
    return NULL;
}
