/* rakhubole frame and rakhubole send: one frame read, one frame written. */
#include "commands.h"
#include "format.h"
#include "hex.h"
#include "message.h"
#include "rakhubole.h"
#include "words.h"

#include <string.h>

/* Each argument may hold several bytes; a slash stands anywhere between. */
static const char *join(struct runs *runs, const struct arguments *arguments)
{
    char text[3 * BYTES_MOST];
    size_t length = 0;
    for (size_t i = 0; i < arguments->count; i++) {
        size_t more = strlen(arguments->operands[i]);
        if (more + 1 > sizeof text - length)
            return "far more bytes than a frame has";
        memcpy(text + length, arguments->operands[i], more);
        length += more;
        text[length++] = ' ';
    }
    return bus_runs_read(arguments->bus, runs, text, length);
}

static void put_part(const char *name, const uint8_t *bytes, size_t count)
{
    printf("  %-9s ", name);
    put_bytes(stdout, bytes, count);
    fputs(count ? "" : "none", stdout);
}

static void put_header(const uint8_t *header, size_t length)
{
    put_part("header", header, length);
    printf(", priority %u", header[0] >> 5);
    if (length == 3)
        printf(", target %02X, source %02X", header[1], header[2]);
    putchar('\n');
}

static void put_parts(const struct bus *bus, const struct runs *runs, uint64_t answer)
{
    size_t header = RAKHUBOLE_READ_HEADER(answer), data = RAKHUBOLE_READ_DATA(answer);
    size_t response = RAKHUBOLE_READ_RESPONSE(answer);
    unsigned kind = RAKHUBOLE_READ_KIND(answer);
    puts("accepted");
    put_header(runs->first.at, header);
    put_part("data", runs->first.at + header, data);
    putchar('\n');
    put_part("check", runs->first.at + header + data, 1);
    putchar('\n');
    put_part("response", runs->response.at, response);
    printf(", kind %u: %s\n", kind, bus_response_words(bus, kind));
    if (runs->response.count > response) {
        put_part("check", runs->response.at + response, runs->response.count - response);
        puts(", of the response");
    }
}

int command_frame(const struct arguments *arguments)
{
    struct runs runs;
    const char *fault = join(&runs, arguments);
    if (fault) {
        complain("this is no frame: %s; give bytes as in %s", fault, arguments->bus->example);
        return STATUS_USAGE;
    }
    uint64_t answer = arguments->bus->read(&runs);
    unsigned refusal = RAKHUBOLE_REFUSAL(answer);
    if (refusal != 0)
        printf("refused: %s (%u)\n", refusal_words(refusal), refusal);
    else
        put_parts(arguments->bus, &runs, answer);
    return refusal != 0 ? STATUS_REFUSED : STATUS_DONE;
}

/* The bytes of an operand, none for "-" or if it is not given. */
static const char *operand_bytes(struct bytes *bytes, const struct arguments *arguments, size_t i)
{
    bytes->count = 0;
    if (i >= arguments->count || strcmp(arguments->operands[i], "-") == 0)
        return NULL;
    return hex_append(bytes, arguments->operands[i], strlen(arguments->operands[i]));
}

/* STATUS_DONE and the parts of the operands, or a message and STATUS_USAGE. */
static int read_parts(struct bytes parts[PARTS], const struct arguments *arguments)
{
    static const char *const names[PARTS] = {"HEADER", "DATA", "RESPONSE"};
    for (size_t i = 0; i < PARTS; i++) {
        const char *fault = operand_bytes(&parts[i], arguments, i);
        if (fault) {
            complain("%s: %s; give bytes as in \"48 6B 10\" or 486B10, none as -", names[i], fault);
            return STATUS_USAGE;
        }
    }
    const char *fault = bus_response_fault(arguments->bus, &parts[PART_RESPONSE]);
    if (!fault)
        return STATUS_DONE;
    complain("%s: %s", names[PART_RESPONSE], fault);
    return STATUS_USAGE;
}

int command_send(const struct arguments *arguments)
{
    struct bytes parts[PARTS];
    if (read_parts(parts, arguments) != STATUS_DONE)
        return STATUS_USAGE;
    uint8_t out[FRAME_MOST];
    uint64_t answer = arguments->bus->write(parts, out);
    unsigned refusal = RAKHUBOLE_REFUSAL(answer);
    if (refusal != 0) {
        complain("nothing to send, refused: %s (%u)", bus_sending_words(arguments->bus, refusal),
                 refusal);
        return STATUS_REFUSED;
    }
    size_t first = RAKHUBOLE_WRITE_FIRST(answer);
    put_runs(stdout, out, first, out + first, RAKHUBOLE_WRITE_RESPONSE(answer));
    putchar('\n');
    return STATUS_DONE;
}
