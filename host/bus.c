#include "bus.h"

#include "words.h"

#include <string.h>

static uint64_t j1850_read(const struct runs *runs)
{
    return rakhubole_j1850_read(runs->first.at, runs->first.count, runs->response.at,
                                runs->response.count);
}

static uint64_t j1850_write(const struct bytes parts[PARTS], uint8_t out[FRAME_MOST])
{
    const struct bytes *header = &parts[PART_HEADER], *data = &parts[PART_DATA];
    const struct bytes *response = &parts[PART_RESPONSE];
    return rakhubole_j1850_write(header->at, header->count, data->at, data->count, response->at,
                                 response->count, out, FRAME_MOST);
}

static uint64_t j1850_report(const struct supplement *supplement, const struct runs *runs,
                             uint8_t rows[RAKHUBOLE_ROWS_MOST])
{
    return rakhubole_j1850_report(supplement->bytes, supplement->length, runs->first.at,
                                  runs->first.count, runs->response.at, runs->response.count,
                                  rows, RAKHUBOLE_ROWS_MOST);
}

const struct bus j1850_bus = {
    .word = "j1850", .name = "SAE J1850",
    .example = "48 6B 10 41 65 80 29, the response behind a slash",
    .header_fault = "the header is not as long as its bit H says",
    .no_response = NULL,
    .read = j1850_read, .write = j1850_write, .report = j1850_report};

static uint64_t iso9141_read(const struct runs *runs)
{
    return rakhubole_iso9141_read(runs->first.at, runs->first.count);
}

static uint64_t iso9141_write(const struct bytes parts[PARTS], uint8_t out[FRAME_MOST])
{
    const struct bytes *header = &parts[PART_HEADER], *data = &parts[PART_DATA];
    return rakhubole_iso9141_write(header->at, header->count, data->at, data->count, out,
                                   FRAME_MOST);
}

static uint64_t iso9141_report(const struct supplement *supplement, const struct runs *runs,
                               uint8_t rows[RAKHUBOLE_ROWS_MOST])
{
    return rakhubole_iso9141_report(supplement->bytes, supplement->length, runs->first.at,
                                    runs->first.count, rows, RAKHUBOLE_ROWS_MOST);
}

static const struct bus iso9141_bus = {
    .word = "iso9141", .name = "ISO 9141-2",
    .example = "48 6B 10 41 65 80 E9",
    .header_fault = "the header is not three bytes",
    .no_response = "ISO 9141-2 has no response; if this is SAE J1850, say --bus j1850",
    .read = iso9141_read, .write = iso9141_write, .report = iso9141_report};

const struct bus *bus_find(const char *word)
{
    if (strcmp(word, j1850_bus.word) == 0)
        return &j1850_bus;
    return strcmp(word, iso9141_bus.word) == 0 ? &iso9141_bus : NULL;
}

const struct bus *bus_other(const struct bus *bus)
{
    return bus == &j1850_bus ? &iso9141_bus : &j1850_bus;
}

const char *bus_runs_read(const struct bus *bus, struct runs *runs, const char *text,
                          size_t length)
{
    const char *fault = runs_read(runs, text, length);
    if (!fault)
        fault = bus_response_fault(bus, &runs->response);
    if (fault)
        runs->first.count = runs->response.count = 0;
    return fault;
}

const char *bus_response_fault(const struct bus *bus, const struct bytes *response)
{
    return response->count > 0 ? bus->no_response : NULL;
}

bool bus_accepts(const struct bus *bus, const struct runs *runs)
{
    return !bus_response_fault(bus, &runs->response) && RAKHUBOLE_REFUSAL(bus->read(runs)) == 0;
}

const char *bus_sending_words(const struct bus *bus, unsigned refusal)
{
    return refusal == RAKHUBOLE_HEADER_LENGTH_WRONG ? bus->header_fault : sending_words(refusal);
}

const char *bus_response_words(const struct bus *bus, unsigned response_kind)
{
    return bus->no_response && response_kind == 0 ? "this bus has none"
                                                  : response_words(response_kind);
}
