/* The values of lines as text. */
#ifndef VALUES_H
#define VALUES_H

#include "reading.h"

enum { VALUE_SIZE = 64, REASON_SIZE = 96 };

/* The double of these bits. */
double double_of(uint64_t bits);

/* The shortest decimal that reads back as the same double; false, and its bits,
 * if it is no number. */
bool number_text(double number, char text[VALUE_SIZE]);

/* A code in hexadecimal digits, as many as the item has; 8 without a label. */
void code_text(uint64_t code, const struct label *label, char text[VALUE_SIZE]);

/* The bits of a Bits line in groups of four, as many as the item has. */
void bits_text(uint64_t code, const struct label *label, char text[VALUE_SIZE]);

/* The characters of a Text line. */
void characters_text(uint64_t code, char text[VALUE_SIZE]);

/* The bits of an item of a BMP SLOT, as a number. */
uint32_t item_bits(uint64_t code, const struct sae_item *item);

/* Why the line is Invalid, Short or Unknown; empty for other lines. The label
 * may be NULL. */
void reason_text(const struct row *row, const struct label *label, char text[REASON_SIZE]);

#endif
