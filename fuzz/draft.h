/* draft.h: the bytes of a fuzz input turned into a request. Damage to the
 * bytes mostly gives another request of the same shape: records with fields in
 * their ranges, frames with right check bytes. */
#ifndef DRAFT_H
#define DRAFT_H

#include "calls.h"
#include "lent.h"

#include <stdbool.h>

/* What is left of an input. */
struct feed {
    const uint8_t *bytes;
    size_t left;
};

/* The next byte; 0 once there is none. */
uint8_t take_byte(struct feed *feed);
uint16_t take_16(struct feed *feed);
uint32_t take_32(struct feed *feed);

/* A run under way. It takes what fits. */
struct draft {
    uint8_t bytes[MOST_LENT_BYTES - GUARD_BYTES];
    size_t length;
};

void put(struct draft *draft, uint32_t number, size_t bytes);
void put_run(struct draft *draft, struct feed *feed, size_t length);

/* A length: nearly always up to 15, now and then up to 1,024. */
size_t take_length(struct feed *feed);

/* What is lent for the rows of a report: any length up to more than they have. */
size_t take_room(struct feed *feed);

/* Both runs of a frame, each behind its length. */
void draft_frame(struct feed *feed, struct draft *first, struct draft *response);

/* Gives the first run, the response or both a right check byte at the end. */
#define SEALED 1
#define RESPONSE_SEALED 2
void seal_frame(uint8_t flags, struct draft *first, struct draft *response);

/* The byte of the same priority and type that a message of ISO 9141-2 can begin
 * with: H = 0 and K = 1. */
uint8_t fitting_first_byte(uint8_t first_byte);

/* Gives a message such a first byte, then a right check byte at the end, or one
 * of the two. A header alone gets the first byte. */
#define FITTED 2
void seal_message(uint8_t flags, struct draft *message);
void fit_first_byte(uint8_t flags, struct draft *header);

/* Makes most records of a stream ones without fault. Left as it is: a kind byte of
 * F8h or more, and what stands behind one of 80h or more. */
void mend_stream(struct draft *stream);

/* Of a writer: the header has the length that the feed says, fitting or not. */
#define ANY_HEADER_LENGTH 1

/* A supplement, as fuzz/supplement.c says. This step puts a selector record for the
 * header of a layout; the byte behind it says which, at most the last. */
#define SELECTOR_OF_LAYOUT 0x14
void draft_supplement(struct feed *feed, struct draft *supplement);

/* The bytes of a record, and no more than are left. */
size_t record_length(const uint8_t *record, size_t left);

/* Takes out each record with a fault, so that the supplement is accepted. */
void mend(struct draft *supplement);

/* Gives the first run the header and selector of a layout of the supplement,
 * if it has one and the run has room. */
void seek_layout(struct feed *feed, const struct draft *supplement, struct draft *first);

/* The supplement of a report. It is mended, and the first run is one whose
 * layout it has, where the flags say so. */
#define MENDED 4
#define SOUGHT 8
void draft_report_supplement(struct feed *feed, uint8_t flags, struct draft *supplement,
                             struct draft *first);

/* Each target of one call turns the feed into the runs of that call and answers
 * the length of the output that is lent. */
extern const enum call target_call;
size_t draft_runs(struct feed *feed, struct draft runs[MOST_RUNS]);

#endif
