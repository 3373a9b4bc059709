/* The buses: what the library is asked on each, and the words that differ. */
#ifndef BUS_H
#define BUS_H

#include "format.h"
#include "hex.h"
#include "rakhubole.h"
#include "records.h"

/* The words behind --bus, for messages. */
#define BUS_WORDS "j1850 or iso9141"

/* The parts of a frame to write, without check bytes. */
enum part { PART_HEADER, PART_DATA, PART_RESPONSE, PARTS };

struct bus {
    const char *word; /* behind --bus */
    const char *name;
    const char *example;      /* of a frame as text */
    const char *header_fault; /* refusal 7 in words */
    const char *no_response;  /* why it has no response; NULL if it has */
    uint64_t (*read)(const struct runs *runs);
    uint64_t (*write)(const struct bytes parts[PARTS], uint8_t out[FRAME_MOST]);
    uint64_t (*report)(const struct supplement *supplement, const struct runs *runs,
                       uint8_t rows[RAKHUBOLE_ROWS_MOST]);
};

/* The bus where none is said. */
extern const struct bus j1850_bus;

/* The bus of that word, or NULL. */
const struct bus *bus_find(const char *word);

const struct bus *bus_other(const struct bus *bus);

/* Reads a frame from text. NULL, or what is wrong with the text; both runs are
 * then empty. */
const char *bus_runs_read(const struct bus *bus, struct runs *runs, const char *text,
                          size_t length);

/* Why a frame of the bus cannot have this response, or NULL. */
const char *bus_response_fault(const struct bus *bus, const struct bytes *response);

/* Whether the library accepts these runs as a frame of the bus. */
bool bus_accepts(const struct bus *bus, const struct runs *runs);

/* What a response kind asks for, in words. */
const char *bus_response_words(const struct bus *bus, unsigned response_kind);

/* A refusal of the writer in words. */
const char *bus_sending_words(const struct bus *bus, unsigned refusal);

#endif
