/* rows.h: a row of each SAE table. */
#ifndef ROWS_H
#define ROWS_H

#include <stdint.h>

struct prn_row {
    uint16_t prn;
    uint8_t form;
    uint8_t width;
    uint16_t number;
};

struct slot_row {
    uint8_t form;
    uint8_t width;
    uint16_t number;
    uint16_t multiplier;
    uint16_t divisor;
    int32_t offset;
    uint32_t lowest;
    uint32_t highest;
};

#endif
