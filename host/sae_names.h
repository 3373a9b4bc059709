/* What document 003 prints beside its PRN rows and SLOTs. These texts are
 * shown, not proved: no answer of the library rests on them. */
#ifndef SAE_NAMES_H
#define SAE_NAMES_H

#include <stddef.h>
#include <stdint.h>

struct sae_prn {
    uint16_t prn;
    uint8_t form, width;
    uint16_t number;
    const char *name, *unit; /* the unit is empty if none is printed */
};

/* A state of SLOT SED-width-number: codes low to high. */
struct sae_state {
    uint8_t width;
    uint16_t number;
    uint32_t low, high;
    const char *text;
};

/* Codes low to high of SLOT SED-width-number that lie within its limits and for
 * which document 003 prints no state. */
struct sae_gap {
    uint8_t width;
    uint16_t number;
    uint32_t low, high;
    const char *called; /* what document 003 calls them; empty if it prints no row */
};

/* Items first to last of SLOT BMP-width-number; item 1 is the most significant
 * bit. What a 0 and a 1 mean is empty if it is not printed. */
struct sae_item {
    uint8_t width;
    uint16_t number;
    uint8_t first, last;
    const char *name, *zero, *one;
};

/* PRNs rise; states, gaps and items stand in order within a SLOT. */
extern const struct sae_prn sae_prns[];
extern const size_t sae_prns_count;
extern const struct sae_state sae_states[];
extern const size_t sae_states_count;
extern const struct sae_gap sae_gaps[];
extern const size_t sae_gaps_count;
extern const struct sae_item sae_items[];
extern const size_t sae_items_count;

#endif
