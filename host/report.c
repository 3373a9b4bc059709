/* rakhubole report: the reports of frames under a supplement, those of a log or
 * of a cable adapter's stream. */
#include "commands.h"
#include "files.h"
#include "load.h"
#include "message.h"
#include "output.h"
#include "progress.h"
#include "reading.h"
#include "source.h"
#include "words.h"

#include <inttypes.h>
#include <string.h>

struct session {
    const struct bus *bus;
    const struct output *output;
    const struct supplement *supplement;
    const char *path; /* of the log or stream, as messages name it */
    struct source source;
    struct tally tally;
    bool is_stopped; /* the rest of the stream is not read */
};

static void count_verdict(struct tally *tally, unsigned verdict)
{
    tally->clear += verdict == RAKHUBOLE_CLEAR;
    tally->flagged += verdict == RAKHUBOLE_FLAGGED;
    tally->unknown += verdict != RAKHUBOLE_CLEAR && verdict != RAKHUBOLE_FLAGGED;
}

static int show_frame(struct session *session, const struct entry *entry)
{
    struct reading reading;
    int refusal = reading_make(&reading, entry->bus, session->supplement, &entry->runs);
    if (refusal < 0) {
        complain("%s %s %" PRIu64 ": the rows of the library are not as its papers say",
                 session->path, entry->unit, entry->place);
        return STATUS_USAGE;
    }
    if (refusal > 0) {
        session->tally.refused++;
        session->tally.of_other_bus += refusal == RAKHUBOLE_CHECK_BYTE_WRONG &&
                                       bus_accepts(bus_other(entry->bus), &entry->runs);
        session->output->refused(entry, (unsigned)refusal);
    } else {
        count_verdict(&session->tally, (unsigned)reading.verdict.body);
        session->output->reading(entry, &reading);
    }
    return STATUS_DONE;
}

/* Shows why the library refuses a record, which is no frame then. */
static void show_refused(struct session *session, const struct entry *entry)
{
    session->tally.records++;
    session->is_stopped = entry->refusal == RAKHUBOLE_STREAM_KIND_UNKNOWN;
    session->output->refused(entry, entry->refusal);
}

/* Shows what a line of the log or a record of the stream is. */
static int show_entry(struct session *session, const struct entry *entry)
{
    switch (entry->kind) {
    case ENTRY_FRAME:
        return show_frame(session, entry);
    case ENTRY_DAMAGED:
        session->tally.damaged++;
        session->output->damaged(entry);
        return STATUS_DONE;
    case ENTRY_REFUSED:
        show_refused(session, entry);
        return STATUS_DONE;
    case ENTRY_PASSED:
        session->tally.passed++;
        session->output->passed(entry);
        return STATUS_DONE;
    default:
        return complain_of_entry(session->path, entry);
    }
}

/* Whether all of the file can be read, before anything is shown. */
static int try_source(struct session *session)
{
    struct entry entry;
    do
        source_next(&session->source, session->bus, &entry);
    while (!entry_is_last(&entry));
    source_restart(&session->source);
    return entry.kind == ENTRY_NONE ? STATUS_DONE : complain_of_entry(session->path, &entry);
}

/* Shows each line of the log or record of the stream, as it comes. */
static int show_source(struct session *session, unsigned long long size)
{
    struct entry entry;
    struct progress progress;
    int status = STATUS_DONE;
    progress_start(&progress, size);
    for (;;) {
        source_next(&session->source, session->bus, &entry);
        if (entry.kind == ENTRY_NONE)
            break;
        progress_step(&progress, &entry, source_place(&session->source));
        if (entry.kind != ENTRY_FRAME)
            progress_end(&progress); /* a message may come */
        status = show_entry(session, &entry);
        if (status == STATUS_DONE)
            status = flush_output();
        if (status != STATUS_DONE)
            break;
    }
    progress_end(&progress);
    return status;
}

/* Names the other bus if more than half of the frames speak for it. */
static void complain_of_bus(const struct session *session, size_t frames)
{
    const struct bus *other = bus_other(session->bus);
    size_t count = session->tally.of_other_bus;
    if (count > frames - count)
        complain("%s: %zu of %zu %s a wrong check byte on %s and would be accepted on %s; is this "
                 "a %s of that bus? Try --bus %s", session->path, count, frames,
                 frames == 1 ? "frame has" : "frames have", session->bus->name, other->name,
                 source_name(session->source.is_stream), other->word);
}

/* What does not even begin as a stream is likely a log. */
static void complain_of_start(const struct session *session)
{
    if (session->is_stopped && source_place(&session->source) == 1)
        complain("%s: does not begin as a stream; if it is a log, leave --adapter out",
                 session->path);
}

/* Nothing was shown. Ticks alone are no fault: the adapter is there, and the bus
 * is quiet. */
static int finish_without_frame(const struct session *session, bool is_strict)
{
    bool has_ticks = session->source.is_stream && source_place(&session->source) > 0;
    complain(has_ticks ? "%s: holds ticks and no frame" : "%s: holds no frame", session->path);
    return has_ticks && !is_strict ? STATUS_DONE : STATUS_REFUSED;
}

static int finish(const struct session *session, bool is_strict)
{
    const struct tally *tally = &session->tally;
    size_t frames = tally->clear + tally->flagged + tally->unknown + tally->refused;
    size_t lost = tally->damaged + tally->records;
    if (frames + lost == 0)
        return finish_without_frame(session, is_strict);
    session->output->end(tally);
    complain_of_bus(session, frames);
    complain_of_start(session);
    bool is_clear = frames == tally->clear && lost == 0;
    return session->is_stopped || (is_strict && !is_clear) ? STATUS_REFUSED : STATUS_DONE;
}

/* JSON has the fractions too, so it is the same with --exact. */
static const struct output *output_of(const struct arguments *arguments)
{
    if (arguments->json)
        return &json_output;
    return arguments->exact ? &exact_output : &table_output;
}

int command_report(const struct arguments *arguments)
{
    const char *path = arguments->operands[1];
    struct supplement supplement;
    struct session session = {.bus = arguments->bus, .supplement = &supplement,
                              .output = output_of(arguments), .path = shown_path(path),
                              .source.is_stream = arguments->adapter};
    if (strcmp(arguments->operands[0], "-") == 0 && strcmp(path, "-") == 0) {
        complain("supplement and %s cannot both come from the standard input",
                 source_name(arguments->adapter));
        return STATUS_USAGE;
    }
    int status = supplement_accept(&supplement, arguments->operands[0]);
    if (status == STATUS_DONE && supplement.length == 0)
        complain("%s is empty: without layouts every frame is Unknown",
                 shown_path(arguments->operands[0]));
    FILE *file = status == STATUS_DONE ? open_to_read(path) : NULL;
    if (!file)
        return status != STATUS_DONE ? status : STATUS_USAGE;
    unsigned long long size = 0;
    source_start(&session.source, file);
    if (file != stdin && is_regular(file, &size))
        status = try_source(&session);
    if (status == STATUS_DONE)
        status = show_source(&session, size);
    close_read(file);
    return status == STATUS_DONE ? finish(&session, arguments->strict) : status;
}
