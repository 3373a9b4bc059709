/* The numbers that documents 01 and 02 fix for frames and records, for all C and
 * Python code here; those of rows stand in include/rakhubole.h. It has enums of
 * plain numbers alone, since tools/c_names.py reads them too. */
#ifndef FORMAT_H
#define FORMAT_H

/* A frame: its bytes in all, and the bits of its first byte. */
enum { FRAME_MOST = 12 };
enum { PRIORITY_BITS = 0xE0, BIT_H = 0x10, BIT_K = 0x08, TYPE_BITS = 0x0F };

/* A message of ISO 9141-2: its header, and its bytes at least, the check byte
 * counted. */
enum { MESSAGE_HEADER = 3, MESSAGE_LEAST = 4 };

/* Forms of PRN rows and SLOTs, and the widths that these may have. */
enum {
    FORM_UNM = 1,
    FORM_SNM = 2,
    FORM_SED = 3,
    FORM_BMP = 4,
    FORM_ASC = 5,
    FORM_BCD = 6,
    FORM_LAST = 9
};
enum { WIDTH_MOST = 64, WIDTH_SHOWN_MOST = 32 };

enum { SUPPLEMENT_MOST = 16384 };

enum { RECORD_SLOT = 1, RECORD_PRN = 2, RECORD_LAYOUT = 3, RECORD_SELECTOR = 4 };

/* Where the fields of a record stand, how many of its first bytes are its key,
 * and its size, the kind byte counted in each. A SLOT is named by form, width
 * and number, which stand together in a SLOT record and in a PRN record. */
enum {
    SLOT_FORM = 1,
    SLOT_WIDTH = 2,
    SLOT_NUMBER = 3,
    SLOT_MULTIPLIER = 5,
    SLOT_DIVISOR = 7,
    SLOT_OFFSET = 9,
    SLOT_LOWEST = 13,
    SLOT_HIGHEST = 17,
    SLOT_KEY_SIZE = 5,
    SLOT_SIZE = 21
};
enum {
    PRN_NUMBER = 1,
    PRN_FORM = 3,
    PRN_WIDTH = 4,
    PRN_SLOT_NUMBER = 5,
    PRN_KEY_SIZE = 3,
    PRN_SIZE = 7
};
enum {
    LAYOUT_FIRST_BYTE = 1,
    LAYOUT_TARGET = 2,
    LAYOUT_SELECTOR_LENGTH = 3,
    LAYOUT_SELECTOR = 4,
    LAYOUT_COUNT = 6,
    LAYOUT_PRN_LIST = 7,
    LAYOUT_KEY_SIZE = 6,
    LAYOUT_SIZE = 39
};
enum { LAYOUT_PRNS = 16 };
enum {
    SELECTOR_FIRST_BYTE = 1,
    SELECTOR_TARGET = 2,
    SELECTOR_LENGTH = 3,
    SELECTOR_KEY_SIZE = 3,
    SELECTOR_SIZE = 4
};

/* The length of a selector: the most, and that for a header without a record of
 * it. */
enum { SELECTOR_MOST = 2, SELECTOR_UNSAID = 1 };

/* The records of an adapter's stream: their kinds, and where the fields of a
 * frame's stand; their sizes are in include/rakhubole.h. */
enum { STREAM_FRAME = 1, STREAM_TICK = 2 };
enum { STREAM_FIRST_LENGTH = 1, STREAM_SECOND_LENGTH = 2, STREAM_RUNS = 3 };

#endif
