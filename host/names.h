/* What the lines of a report are called: the layout that a report uses, its
 * PRNs, and what document 003 prints beside them. Values, acceptance and verdict
 * are the library's; what stands here is shown, not proved. */
#ifndef NAMES_H
#define NAMES_H

#include "records.h"
#include "sae_names.h"

/* How the record of the layout sought starts, up to its key's end; and the PRNs
 * of that layout, if there is one. */
struct layout {
    uint8_t start[LAYOUT_KEY_SIZE];
    bool is_found;
    size_t count;
    uint16_t prns[LAYOUT_PRNS];
};

/* A PRN and what is known of it. */
struct label {
    uint16_t prn;
    bool is_found, is_sae;
    struct slot_key slot;
    const char *name, *unit; /* NULL if there is none */
};

/* The layout for an accepted frame's header and data. */
struct layout layout_sought(const struct supplement *supplement, const uint8_t *header,
                            size_t header_length, const uint8_t *data, size_t data_length);

struct label label_of(const struct supplement *supplement, uint16_t prn);

/* The text of a state of a SLOT, or NULL. */
const char *state_text(struct slot_key slot, uint32_t code);

/* The codes between two states of a SLOT that hold this one, if document 003
 * prints no state for it; or NULL. */
const struct sae_gap *state_gap(struct slot_key slot, uint32_t code);

/* The items of a SLOT, the most significant first, and their number. */
const struct sae_item *slot_items(struct slot_key slot, size_t *count);

#endif
