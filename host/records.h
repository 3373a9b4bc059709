/* The records of a supplement, as bytes. */
#ifndef RECORDS_H
#define RECORDS_H

#include "format.h"

#include <stdbool.h>
#include <stddef.h>
#include <stdint.h>

/* There is room for a record beyond the limit, so that the library is the one
 * to refuse what is over it. */
struct supplement {
    size_t length;
    uint8_t bytes[SUPPLEMENT_MOST + LAYOUT_SIZE];
};

/* A record as its bytes, kind byte first. Number 0 is before the first. */
struct record {
    size_t number;
    size_t place;
    size_t length; /* 1 for an unknown kind, what there is for a cut record */
    const uint8_t *bytes;
};

/* What a SLOT's name is made of. */
struct slot_key {
    uint8_t form, width;
    uint16_t number;
};

/* The size of a record of this kind, 0 if the kind is unknown; and how many of
 * its first bytes, the kind byte counted, are its key. */
size_t record_size(uint8_t kind);
size_t record_key_size(uint8_t kind);

/* Steps to the next record, if there is one. */
bool record_next(const struct supplement *supplement, struct record *record);

/* Goes to the first record that starts with these bytes, if there is one. */
bool record_find(const struct supplement *supplement, const uint8_t *start, size_t length,
                 struct record *record);

/* Numbers with the most significant byte first, signed ones in two's complement. */
uint16_t number16(const uint8_t *bytes);
uint32_t number32(const uint8_t *bytes);
int32_t signed32(const uint8_t *bytes);
uint64_t number64(const uint8_t *bytes);
int64_t signed64(const uint8_t *bytes);

/* The SLOT that a SLOT or PRN record names. */
struct slot_key slot_key_of(const struct record *record);

/* A PRN of a layout record, counted from 0. */
uint16_t layout_prn(const struct record *record, size_t i);

/* How many data bytes are the selector of frames with this header, first byte and
 * target, and whether a record says so. */
struct selector_length {
    size_t bytes;
    bool is_said;
};
struct selector_length selector_length_of(const struct supplement *supplement,
                                          const uint8_t header[2]);

/* First byte and target as a supplement's text has them: "header 08 6B". */
enum { HEADER_TEXT_SIZE = 16 };
void header_text(const uint8_t header[2], char text[HEADER_TEXT_SIZE]);

/* The selector of a layout record that starts so, with this mark behind each
 * byte: "selector 41h 0Ch", "no selector". */
enum { SELECTOR_TEXT_SIZE = 24 };
void selector_text(const uint8_t start[LAYOUT_KEY_SIZE], const char *mark,
                   char text[SELECTOR_TEXT_SIZE]);

/* The key of a layout record that starts so, as a supplement's text has it:
 * "header 08 6B selector 41 0C". */
enum { LAYOUT_TEXT_SIZE = 40 };
void layout_key_text(const uint8_t start[LAYOUT_KEY_SIZE], char text[LAYOUT_TEXT_SIZE]);

/* The name as document 003 prints it, "UNM-08-101". */
enum { SLOT_NAME_SIZE = 20 };
void slot_name(struct slot_key key, char name[SLOT_NAME_SIZE]);

#endif
