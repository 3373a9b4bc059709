/* Has every case answered by two archives, an earlier one and the one just
 * built, and compares the answers and all memory that was lent.
 *
 *   alike CRATES CASES
 *
 * The cases are the committed vectors, each with several lengths of output, and
 * so many random ones from a fixed seed: mostly good frames under supplements
 * that have a layout for them, parts of mostly good streams, and near misses.
 * Calls that the earlier archive lacks are left out, their vectors counted. One
 * that knows no kind 4 is lent its own form of each supplement, and cases that it
 * has none for are left out and counted. The first case that differs is printed,
 * and the status is then 1. */
#include "calls.h"
#include "classes.h"
#include "decoder_stream.h"
#include "draft.h"
#include "format.h"
#include "rakhubole.h"
#include "vectors.h"

#include <stdio.h>
#include <stdlib.h>
#include <string.h>

/* More than any result has. */
#define MOST_OUT (RAKHUBOLE_ROWS_MOST + 64)
#define FRAME_FEED 64
#define RECORDS_FEED 320
#define LAYOUT_FEED 56
#define STEP_FEED 96
#define STEP_PART 64
/* The message type whose response ends in a check byte. */
#define CHECKED_TYPE 3

/* The earlier archive; each of its names has this before it. Weak, so that a
 * call which it lacks is NULL. */
#define EARLIER __attribute__((weak))
EARLIER one_run_call before_rakhubole_supplement_check, before_rakhubole_iso9141_read;
EARLIER two_run_call before_rakhubole_j1850_read;
EARLIER two_run_output_call before_rakhubole_iso9141_write, before_rakhubole_iso9141_report;
EARLIER three_run_output_call before_rakhubole_j1850_write, before_rakhubole_j1850_report;
EARLIER state_call before_rakhubole_stream_end, before_rakhubole_stream_place;
EARLIER state_output_call before_rakhubole_stream_read;
EARLIER state_change_call before_rakhubole_stream_advance;

static const struct calls before_calls = {
    "before", before_rakhubole_j1850_read, before_rakhubole_j1850_write,
    before_rakhubole_supplement_check, before_rakhubole_j1850_report,
    before_rakhubole_iso9141_read, before_rakhubole_iso9141_write,
    before_rakhubole_iso9141_report, before_rakhubole_stream_read,
    before_rakhubole_stream_advance, before_rakhubole_stream_end, before_rakhubole_stream_place,
};
static const struct calls *const both[] = {&before_calls, &archive_calls};
static const char *const names[] = {"before", "now"};
enum { BEFORE, NOW };

static unsigned long cases, differences;
/* Vectors of calls that the earlier archive lacks. */
static size_t skipped;

/* Whether both archives have the call. */
static bool is_shared(enum call call)
{
    const bool had[CALLS] = {
        before_calls.read, before_calls.write, before_calls.check, before_calls.report,
        before_calls.iso_read, before_calls.iso_write, before_calls.iso_report,
        before_calls.stream_read, before_calls.stream_advance, before_calls.stream_end,
        before_calls.stream_place,
    };
    return had[call];
}

/* ---- Supplements without kind 4 ---- */

/* Whether the earlier archive knows no kind 4. Its layouts have a selector of at most
 * one byte, and end a byte earlier. */
static bool is_form_older;
/* Cases with a supplement that has no such form. */
static unsigned long left_out;

/* What is left away of a layout. */
#define SECOND_BYTE (LAYOUT_SELECTOR + 1)

static bool is_older(const struct calls *calls)
{
    static const uint8_t kind = RECORD_SELECTOR;
    return calls->check(&kind, 1) == RAKHUBOLE_RECORD_KIND_UNKNOWN;
}

/* Whether the older form is other bytes; a supplement too long is so in any form. */
static bool is_translated(const struct request *request)
{
    return is_form_older && (request->call == CALL_CHECK || is_report(request->call)) &&
           request->in[0].length <= SUPPLEMENT_MOST;
}

/* Whether the record says the same there. Of a cut one no field is looked at. */
static bool has_older_form(const uint8_t *record, size_t length)
{
    if (record[0] == RECORD_LAYOUT && length == LAYOUT_SIZE)
        return record[LAYOUT_SELECTOR_LENGTH] != SELECTOR_MOST && record[SECOND_BYTE] == 0;
    return record[0] != RECORD_SELECTOR;
}

static void put_older_record(struct draft *older, const uint8_t *record, size_t length)
{
    for (size_t i = 0; i < length; i++)
        if (record[0] != RECORD_LAYOUT || i != SECOND_BYTE)
            put(older, record[i], 1);
}

/* False if a record has no such form. */
static bool put_older_form(struct draft *older, const struct run *supplement)
{
    older->length = 0;
    for (size_t place = 0, length; place < supplement->length; place += length) {
        const uint8_t *record = supplement->bytes + place;
        length = record_length(record, supplement->length - place);
        if (!has_older_form(record, length))
            return false;
        put_older_record(older, record, length);
    }
    return true;
}

/* The answer for that form: the place of a fault lies a byte before for each layout
 * before it. */
static uint64_t older_answer(const struct run *supplement, uint64_t answer)
{
    size_t fault = RAKHUBOLE_REFUSAL(answer) ? RAKHUBOLE_PLACE(answer) : 0;
    uint64_t layouts = 0;
    for (size_t place = 0; place < fault && place < supplement->length;) {
        const uint8_t *record = supplement->bytes + place;
        layouts += record[0] == RECORD_LAYOUT;
        place += record_length(record, supplement->length - place);
    }
    return answer - (layouts << 8);
}

/* Makes the records ones that have such a form, as far as they are whole. */
static void keep_to_older_form(struct draft *run)
{
    size_t kept = 0;
    for (size_t place = 0, length; place < run->length; place += length) {
        uint8_t *record = run->bytes + place;
        length = record_length(record, run->length - place);
        if (record[0] == RECORD_SELECTOR)
            continue;
        if (record[0] == RECORD_LAYOUT && length == LAYOUT_SIZE) {
            record[SECOND_BYTE] = 0;
            if (record[LAYOUT_SELECTOR_LENGTH] == SELECTOR_MOST)
                record[LAYOUT_SELECTOR_LENGTH] = 1;
        }
        memmove(run->bytes + kept, record, length);
        kept += length;
    }
    run->length = kept;
}

/* ---- Comparing ---- */

/* All that is lent to a call, the output last, guard bytes around each. */
struct arena {
    size_t places[MOST_LENT];
    size_t length;
    uint8_t bytes[MOST_RUNS * MOST_LENT_BYTES + MOST_OUT + (MOST_LENT + 1) * GUARD_BYTES];
};

/* As they were lent to each archive, and as it left them. */
static struct arena lent[2], left[2];

/* The bytes beside the runs hang on how far the end is, so that those of the output
 * are the same for both archives. */
static void lend_all(struct arena *arena, const struct request *request)
{
    arena->length = GUARD_BYTES;
    for (size_t i = 0; i < MOST_LENT; i++) {
        size_t length = i < MOST_RUNS ? request->in[i].length : request->out_length;
        arena->places[i] = arena->length;
        arena->length += length + GUARD_BYTES;
    }
    for (size_t at = 0; at < arena->length; at++)
        arena->bytes[at] = (uint8_t)(0x5A + 7 * (arena->length - at));
    for (size_t i = 0; i < MOST_RUNS; i++)
        if (request->in[i].length)
            memcpy(arena->bytes + arena->places[i], request->in[i].bytes, request->in[i].length);
}

/* The answer of an archive that is lent a copy. Empty runs are NULL in turns. */
static uint64_t answer_by(int who, const struct request *request)
{
    struct request mine = *request;
    bool has_null = cases % 2 == 0;
    uint8_t *bytes = left[who].bytes;
    lend_all(&lent[who], request);
    memcpy(bytes, lent[who].bytes, lent[who].length);
    for (size_t i = 0; i < MOST_RUNS; i++)
        mine.in[i].bytes =
            has_null && mine.in[i].length == 0 ? NULL : bytes + lent[who].places[i];
    mine.out = has_null && mine.out_length == 0 ? NULL : bytes + lent[who].places[MOST_RUNS];
    return answer_of(both[who], &mine);
}

/* Whether the length of the output is the caller's choice. */
static bool has_output(enum call call)
{
    return is_write(call) || is_report(call) || call == CALL_STREAM_READ;
}

static size_t written_by(enum call call, uint64_t answer)
{
    if (is_write(call))
        return RAKHUBOLE_WRITE_FIRST(answer) + RAKHUBOLE_WRITE_RESPONSE(answer);
    if (is_report(call))
        return RAKHUBOLE_ROWS_LENGTH(answer);
    return RAKHUBOLE_STREAM_FIRST(answer) + RAKHUBOLE_STREAM_SECOND(answer);
}

/* The length of what the call gives if there is room; 0 if it is refused. */
static size_t result_length(const struct request *request)
{
    struct request mine = *request;
    mine.out_length = MOST_OUT;
    uint64_t answer = answer_by(NOW, &mine);
    return RAKHUBOLE_REFUSAL(answer) == 0 ? written_by(request->call, answer) : 0;
}

static const uint8_t *output_of(int who)
{
    return left[who].bytes + lent[who].places[MOST_RUNS];
}

/* All but the output is as it was lent. */
static bool is_rest_untouched(int who, const struct request *request)
{
    size_t out = lent[who].places[MOST_RUNS], end = out + request->out_length;
    return memcmp(left[who].bytes, lent[who].bytes, out) == 0 &&
           memcmp(left[who].bytes + end, lent[who].bytes + end, lent[who].length - end) == 0;
}

/* Both leave the same output, and nothing else otherwise than it was. */
static bool is_memory_alike(const struct request *request)
{
    return memcmp(output_of(BEFORE), output_of(NOW), request->out_length) == 0 &&
           is_rest_untouched(BEFORE, request) && is_rest_untouched(NOW, request);
}

static void show_run(const char *name, const uint8_t *run, size_t length)
{
    printf("  %s, %zu bytes:", name, length);
    for (size_t i = 0; i < length; i++)
        printf(" %02X", run[i]);
    printf("\n");
}

/* The first byte outside the output that is not as it was lent. */
static void show_touched(const struct request *request, int who)
{
    size_t out = lent[who].places[MOST_RUNS], end = out + request->out_length;
    for (size_t at = 0; at < lent[who].length; at++) {
        if ((at >= out && at < end) || left[who].bytes[at] == lent[who].bytes[at])
            continue;
        printf("  %s touches a byte %ld from the start of the output\n", names[who],
               (long)at - (long)out);
        return;
    }
}

static void show_case(const struct request *request, const char *where, const uint64_t answers[2])
{
    printf("%s, %s: before %016llX, now %016llX, lent %zu bytes for output\n", where,
           call_names[request->call], (unsigned long long)answers[0],
           (unsigned long long)answers[1], request->out_length);
    for (size_t i = 0; i < runs_of(request->call); i++)
        show_run("run", request->in[i].bytes, request->in[i].length);
    for (int who = 0; who < 2; who++) {
        show_run(names[who], output_of(who), request->out_length);
        show_touched(request, who);
    }
}

static void try_case(const struct request *request, const char *where)
{
    static struct draft older;
    const struct run *supplement = &request->in[0];
    bool is_other = is_translated(request);
    struct request earlier = *request;
    if (is_other && !put_older_form(&older, supplement)) {
        left_out++;
        return;
    }
    if (is_other)
        earlier.in[0] = (struct run){older.bytes, older.length};
    cases++;
    const uint64_t answers[] = {answer_by(BEFORE, &earlier), answer_by(NOW, request)};
    uint64_t wanted = is_other ? older_answer(supplement, answers[NOW]) : answers[NOW];
    if (answers[BEFORE] == wanted && is_memory_alike(request))
        count_classes(request, answers[NOW], output_of(NOW));
    else if (differences++ == 0)
        show_case(request, where, answers);
}

static void try_vector(const struct request *request, const char *where, void *state)
{
    struct request mine = *request;
    (void)state;
    if (!is_shared(request->call)) {
        skipped++;
        return;
    }
    try_case(request, where);
    if (!has_output(request->call))
        return;
    size_t exact = result_length(request);
    const size_t rooms[] = {exact, exact ? exact - 1 : 0, 0, MOST_OUT};
    for (size_t i = 0; i < sizeof rooms / sizeof *rooms; i++) {
        mine.out_length = rooms[i];
        try_case(&mine, where);
    }
}

/* ---- Random cases ---- */

/* By splitmix64, from a fixed seed. */
static void fill_random(uint8_t *bytes, size_t length)
{
    static uint64_t seed = 1;
    for (size_t i = 0; i < length; i++) {
        uint64_t word = seed += 0x9E3779B97F4A7C15;
        word = (word ^ word >> 30) * 0xBF58476D1CE4E5B9;
        word = (word ^ word >> 27) * 0x94D049BB133111EB;
        bytes[i] = (uint8_t)(word >> 56);
    }
}

/* Now and then a byte more, a byte less, or another bit. */
static void miss(struct feed *feed, struct draft *run)
{
    uint8_t how = take_byte(feed);
    uint16_t at = take_16(feed);
    switch (how % 32) {
    case 0: put(run, at, 1); break;
    case 1: run->length -= run->length > 0; break;
    case 2:
        if (run->length)
            run->bytes[at % run->length] ^= (uint8_t)(1 << how / 32);
        break;
    default: break;
    }
}

/* A header as long as it says. */
static void draft_header(struct feed *feed, struct draft *run)
{
    put_run(run, feed, 1);
    put_run(run, feed, run->bytes[0] & BIT_H ? 0 : 2);
}

static void draft_data(struct feed *feed, struct draft *run)
{
    put_run(run, feed, take_byte(feed) % 9);
}

/* A response without check byte, mostly of a length that the header asks for. */
static void draft_response(struct feed *feed, uint8_t first_byte, struct draft *run)
{
    static const uint8_t lengths[] = {1, 1, 1, 1, 1, 2, 3, 5};
    uint8_t byte = take_byte(feed);
    if (byte < 16)
        put_run(run, feed, byte);
    else if (!(first_byte & BIT_K))
        put_run(run, feed, lengths[byte % 8]);
}

/* Data behind the header, under a layout of the supplement if it has one, and
 * the place of the check byte. */
static void draft_behind_header(struct feed *feed, const struct draft *supplement,
                                struct draft *first)
{
    draft_data(feed, first);
    put(first, 0, 1);
    if (supplement)
        seek_layout(feed, supplement, first);
}

/* Seven of eight messages of ISO 9141-2 have a first byte of that bus. */
static uint8_t message_flags(struct feed *feed)
{
    return take_byte(feed) % 8 ? SEALED | FITTED : SEALED;
}

static void draft_message(struct feed *feed, const struct draft *supplement, struct draft *message)
{
    put_run(message, feed, MESSAGE_HEADER);
    draft_behind_header(feed, supplement, message);
    seal_message(message_flags(feed), message);
    miss(feed, message);
}

/* Both runs of a frame. */
static void draft_both(struct feed *feed, const struct draft *supplement, struct draft *first,
                       struct draft *response)
{
    uint8_t flags = SEALED;
    draft_header(feed, first);
    draft_behind_header(feed, supplement, first);
    draft_response(feed, first->bytes[0], response);
    if ((first->bytes[0] & TYPE_BITS) == CHECKED_TYPE) {
        put(response, 0, 1);
        flags |= RESPONSE_SEALED;
    }
    seal_frame(flags, first, response);
    miss(feed, first);
    miss(feed, response);
}

/* A layout behind the records, as bytes of a fuzz input. In most, no byte of its
 * PRNs says that a PRN is a new one: each is that of a record or of SAE. Its
 * first byte is one that messages of ISO 9141-2 can have, if they are to use it. */
static void draft_layout(uint8_t flags, bool for_messages, struct draft *run)
{
    uint8_t bytes[LAYOUT_FEED];
    struct feed feed = {bytes, sizeof bytes};
    fill_random(bytes, sizeof bytes);
    bytes[0] = RECORD_LAYOUT;
    if (for_messages)
        bytes[LAYOUT_FIRST_BYTE] = fitting_first_byte(bytes[LAYOUT_FIRST_BYTE]);
    for (size_t i = LAYOUT_COUNT; flags % 4 && i < sizeof bytes; i++)
        bytes[i] = (uint8_t)(bytes[i] / 4 * 4 + 1 + bytes[i] % 2);
    draft_supplement(&feed, run);
}

/* The length for the header of the last layout. */
static void draft_selector(struct draft *run)
{
    static const uint8_t bytes[] = {SELECTOR_OF_LAYOUT, UINT8_MAX};
    struct feed feed = {bytes, sizeof bytes};
    draft_supplement(&feed, run);
}

static void mend_form(bool is_mended, struct draft *run)
{
    if (is_form_older)
        keep_to_older_form(run);
    if (is_mended)
        mend(run);
}

/* Records of all kinds, then a layout; three in four supplements are good. */
static void draft_records(struct feed *feed, bool for_messages, struct draft *run)
{
    uint8_t bytes[RECORDS_FEED], flags = take_byte(feed);
    struct feed records = {bytes, sizeof bytes};
    fill_random(bytes, sizeof bytes);
    draft_supplement(&records, run);
    mend_form(flags / 4 % 4, run);
    draft_layout(flags, for_messages, run);
    draft_selector(run);
    mend_form(flags / 4 % 4, run);
    miss(feed, run);
}

/* A part of mostly good records, and the state that it meets: one that a call made
 * of its first bytes, at any place, or any bytes. */
static void draft_step(struct draft *state, struct draft *part)
{
    uint8_t bytes[STEP_FEED];
    struct feed feed = {bytes, sizeof bytes};
    fill_random(bytes, sizeof bytes);
    put_run(state, &feed, RAKHUBOLE_STREAM_STATE);
    put_run(part, &feed, STEP_PART);
    mend_stream(part);
    miss(&feed, part);
    if (take_byte(&feed) % 4 == 0)
        return;
    memset(state->bytes + STATE_STOPPED, 0, RAKHUBOLE_STREAM_STATE - STATE_STOPPED);
    size_t first = take_byte(&feed) % (STEP_PART / 2);
    size_t taken = (size_t)decoder_calls.stream_advance(state->bytes, part->bytes, first);
    part->length -= taken;
    memmove(part->bytes, part->bytes + taken, part->length);
}

static void draft_request(enum call call, struct draft runs[MOST_RUNS])
{
    uint8_t bytes[FRAME_FEED];
    struct feed feed = {bytes, sizeof bytes};
    fill_random(bytes, sizeof bytes);
    switch (call) {
    case CALL_READ: draft_both(&feed, NULL, &runs[0], &runs[1]); break;
    case CALL_WRITE:
        draft_header(&feed, &runs[0]);
        draft_data(&feed, &runs[1]);
        draft_response(&feed, runs[0].bytes[0], &runs[2]);
        miss(&feed, &runs[0]);
        break;
    case CALL_CHECK: draft_records(&feed, false, &runs[0]); break;
    case CALL_REPORT:
        draft_records(&feed, false, &runs[0]);
        draft_both(&feed, &runs[0], &runs[1], &runs[2]);
        break;
    case CALL_ISO_READ: draft_message(&feed, NULL, &runs[0]); break;
    case CALL_ISO_WRITE:
        put_run(&runs[0], &feed, MESSAGE_HEADER);
        draft_data(&feed, &runs[1]);
        fit_first_byte(message_flags(&feed), &runs[0]);
        miss(&feed, &runs[0]);
        break;
    case CALL_ISO_REPORT:
        draft_records(&feed, true, &runs[0]);
        draft_message(&feed, &runs[0], &runs[1]);
        break;
    default: draft_step(&runs[0], &runs[1]);
    }
}

/* Room for the result or more, mostly; else one byte less, or any length. */
static size_t random_room(const struct request *request)
{
    uint8_t bytes[3];
    struct feed feed = {bytes, sizeof bytes};
    fill_random(bytes, sizeof bytes);
    size_t exact = result_length(request);
    const size_t rooms[] = {MOST_OUT, MOST_OUT, MOST_OUT, exact, exact, exact,
                            exact ? exact - 1 : 0, take_room(&feed)};
    return rooms[take_byte(&feed) % (sizeof rooms / sizeof *rooms)];
}

static void try_random(enum call call, unsigned long number)
{
    static struct draft runs[MOST_RUNS];
    char where[64];
    struct request request = {.call = call};
    for (size_t i = 0; i < MOST_RUNS; i++)
        runs[i].length = 0;
    draft_request(request.call, runs);
    for (size_t i = 0; i < MOST_RUNS; i++)
        request.in[i] = (struct run){runs[i].bytes, runs[i].length};
    if (call >= CALL_STREAM_READ)
        request = stream_request(call, runs[0].bytes, request.in[1], NULL, 0);
    if (has_output(request.call))
        request.out_length = random_room(&request);
    snprintf(where, sizeof where, "random case %lu", number);
    try_case(&request, where);
}

/* The calls that both have, in turns. */
static void try_random_cases(unsigned long wanted)
{
    for (unsigned long number = 0, turn = 0; number < wanted; turn++)
        if (is_shared((enum call)(turn % CALLS)))
            try_random((enum call)(turn % CALLS), number++);
}

/* The classes of the calls that both have, and the names of the others. */
static void show_calls(void)
{
    for (int call = 0; call < CALLS; call++) {
        if (is_shared((enum call)call))
            show_classes((enum call)call);
        else
            printf("%s: not in the earlier archive\n", call_names[call]);
    }
}

int main(int count, char **words)
{
    if (count != 3) {
        fprintf(stderr, "usage: alike CRATES CASES\n");
        return 2;
    }
    unsigned long wanted = strtoul(words[2], NULL, 10);
    is_form_older = is_older(&before_calls);
    size_t vectors = visit_vectors(words[1], try_vector, NULL);
    printf("%zu vectors, %lu cases of them; %lu random cases\n", vectors - skipped, cases, wanted);
    if (skipped)
        printf("%zu vectors skipped: the earlier archive lacks their calls\n", skipped);
    if (skipped == vectors)
        return 1;
    try_random_cases(wanted);
    show_calls();
    if (is_form_older)
        printf("%lu cases left out: the earlier archive has no form for their supplements\n",
               left_out);
    printf("%lu cases, %lu differ\n", cases, differences);
    return differences ? 1 : 0;
}
