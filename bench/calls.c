#include "calls.h"

#include "decoder.h"
#include "rakhubole.h"

#include <string.h>

const struct calls decoder_calls = {
    "C", decoder_read, decoder_write, decoder_check, decoder_report,
    decoder_iso_read, decoder_iso_write, decoder_iso_report,
    decoder_stream_read, decoder_stream_advance, decoder_stream_end, decoder_stream_place,
};

const char *const call_names[] = {
    "read", "write", "check", "report", "iso_read", "iso_write", "iso_report",
    "stream_read", "stream_advance", "stream_end", "stream_place",
};

size_t runs_of(enum call call)
{
    static const size_t runs[] = {
        [CALL_READ] = 2,        [CALL_WRITE] = 3,       [CALL_CHECK] = 1,
        [CALL_REPORT] = 3,      [CALL_ISO_READ] = 1,    [CALL_ISO_WRITE] = 2,
        [CALL_ISO_REPORT] = 2,  [CALL_STREAM_READ] = 2, [CALL_STREAM_ADVANCE] = 2,
        [CALL_STREAM_END] = 1,  [CALL_STREAM_PLACE] = 1,
    };
    return runs[call];
}

bool is_write(enum call call)
{
    return call == CALL_WRITE || call == CALL_ISO_WRITE;
}

bool is_report(enum call call)
{
    return call == CALL_REPORT || call == CALL_ISO_REPORT;
}

struct request stream_request(enum call call, const uint8_t *state, struct run part, uint8_t *out,
                              size_t room)
{
    struct request request = {.call = call, .in = {{state, RAKHUBOLE_STREAM_STATE}}, .out = out};
    if (runs_of(call) > 1)
        request.in[1] = part;
    if (call == CALL_STREAM_READ)
        request.out_length = room;
    if (call == CALL_STREAM_ADVANCE)
        request.out_length = RAKHUBOLE_STREAM_STATE;
    return request;
}

static uint64_t advance(const struct calls *calls, const uint8_t *state, const struct run *part,
                        uint8_t *out)
{
    memcpy(out, state, RAKHUBOLE_STREAM_STATE);
    return calls->stream_advance(out, part->bytes, part->length);
}

uint64_t answer_of(const struct calls *calls, const struct request *request)
{
    const struct run *a = &request->in[0], *b = &request->in[1], *c = &request->in[2];
    uint8_t *out = request->out;
    size_t room = request->out_length;
    switch (request->call) {
    case CALL_READ: return calls->read(a->bytes, a->length, b->bytes, b->length);
    case CALL_CHECK: return calls->check(a->bytes, a->length);
    case CALL_WRITE:
        return calls->write(a->bytes, a->length, b->bytes, b->length, c->bytes, c->length, out,
                            room);
    case CALL_REPORT:
        return calls->report(a->bytes, a->length, b->bytes, b->length, c->bytes, c->length, out,
                             room);
    case CALL_ISO_READ: return calls->iso_read(a->bytes, a->length);
    case CALL_ISO_WRITE:
        return calls->iso_write(a->bytes, a->length, b->bytes, b->length, out, room);
    case CALL_ISO_REPORT:
        return calls->iso_report(a->bytes, a->length, b->bytes, b->length, out, room);
    case CALL_STREAM_READ: return calls->stream_read(a->bytes, b->bytes, b->length, out, room);
    case CALL_STREAM_ADVANCE: return advance(calls, a->bytes, b, out);
    case CALL_STREAM_END: return calls->stream_end(a->bytes);
    default: return calls->stream_place(a->bytes);
    }
}

unsigned refusal_of(enum call call, uint64_t answer)
{
    bool is_number = call == CALL_STREAM_ADVANCE || call == CALL_STREAM_PLACE;
    return is_number ? 0 : RAKHUBOLE_REFUSAL(answer);
}
