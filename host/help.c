#include "help.h"

#include "bus.h"

#include <string.h>

/* What options do has a string of its own: C99 compilers need not take longer
 * ones than 4,095 characters. */
struct help {
    const char *command, *operands, *summary, *text, *options;
};

static const struct help helps[] = {
    {"report", "[--adapter] [--bus BUS] [--exact] [--json] [--strict] SUPPLEMENT LOG",
     "read a log of frames and show what each one says",
     "Shows for each frame of LOG a table of PRN, name and value, what is left over,\n"
     "the response, and the verdict:\n"
     "\n"
     "  Clear    every line has a value and no bit is left over\n"
     "  Flagged  a line is Invalid or Short, or bits are left over\n"
     "  Unknown  otherwise, if a line could not be decoded\n"
     "\n"
     "On a terminal Clear is green, Flagged red and Unknown grey, unless NO_COLOR is\n"
     "set. A frame that the library refuses is shown with the reason, and the log\n"
     "goes on. Lines, values, verdicts and refusals are the library's. Names, units\n"
     "and the texts of states and bits are document 003's (SAE J2178-2): they are\n"
     "shown, not proved. A PRN of the supplement has none.\n"
     "\n"
     "On SAE J1850 a message needs a response or allows none. Four refusals tell a\n"
     "dead module from a chattering one:\n"
     "\n"
     "  50  a module answered unasked: the message allows no response\n"
     "  51  the module did not answer, or the adapter left its answer out\n"
     "  52  the answer was cut short, before its check byte\n"
     "  53  more than one module answered, or one chatters\n"
     "\n"
     "A few SLOTs have codes between two states for which document 003 prints no\n"
     "state: it calls them Invalid or Reserved. They lie within the SLOT's limits, so\n"
     "they are shown as states and the frame can be Clear; beside the code stands\n"
     "that document 003 prints no state for it. Read no meaning into such a code.\n"
     "\n"
     "LOG is text, one frame a line. A file is read to its end first, and nothing is\n"
     "shown if a line is bad; - is the standard input, shown line by line as it\n"
     "comes.\n"
     "\n"
     "  48 6B 10 41 65 80 29      bytes in hexadecimal, the check byte included\n"
     "  486B1041658029            the same without blanks\n"
     "  63 1A F1 39 / 12 34 AC    the response behind a slash, on SAE J1850 alone\n"
     "  # comment                 to the end of the line; blank lines are skipped\n"
     "\n"
     "Lines of ELM327-class adapters are understood too. Turn headers on (ATH1), so\n"
     "that header and check byte are there. If the adapter prints the bytes of a\n"
     "response behind the check byte, put the slash in; if it leaves them out, each\n"
     "message that needs a response is refused with 51, whether a module answered or\n"
     "not. Prompts (>), carriage returns and zero bytes do no harm. What the adapter\n"
     "says besides frames, such as OK, NO DATA or BUS INIT: ...OK, and commands of up\n"
     "to seven digits behind a prompt, such as >010C, are passed over and named;\n"
     "longer ones would be taken for frames, so turn the echo off (ATE0). What the\n"
     "adapter marks or reports as damaged or lost, as in\n"
     "\n"
     "  48 6B 10 41 65 <DATA ERROR\n"
     "\n"
     "is shown and not decoded. Any other line is a fault.\n"
     "\n",
     "  --adapter LOG is not text but the stream of a cable adapter: records one\n"
     "            after the other, each a frame, or a tick, which is skipped. A frame\n"
     "            is shown as in a log, but with the place of its record, the bytes\n"
     "            before it, for its line. - is shown as it comes, frame by frame. A\n"
     "            record that is refused counts as damaged:\n"
     "              60  neither a frame nor a tick begins here: nothing from here on\n"
     "                  is read, and the exit status is 1\n"
     "              61  a damaged record; the stream goes on behind it\n"
     "              62  the stream ended inside a record\n"
     "            A stream of ticks alone is said to be one; with --strict the exit\n"
     "            status is then 1. 'rakhubole pack' makes a stream to try.\n"
     "  --bus     the bus of the log: j1850, SAE J1850, which is meant if none is\n"
     "            said, or iso9141, ISO 9141-2. Layouts serve both. If more than\n"
     "            half of the frames have a wrong check byte here and would be\n"
     "            accepted on the other bus, a message at the end says so.\n"
     "  --exact   the table shows each number as an exact fraction, where a decimal\n"
     "            may be rounded: 101/1 for 101, -299/10 for -29.9. Above the line\n"
     "            stands raw x multiplier + offset, below it the divisor of the SLOT.\n"
     "            The fraction is left as it is: 300/3, not 100/1. It changes the\n"
     "            table alone: JSON has the fraction in any case.\n"
     "  --strict  exit status 1 unless every frame is Clear and none is damaged\n"
     "  --json    one object a line for each frame, and nothing of it lost: \"line\",\n"
     "            with --adapter \"byte\", \"bus\" (the word of --bus), \"first\" and\n"
     "            \"response\" (bytes; a record that is refused has none),\n"
     "            \"refusal\" (0 for none) and its \"reason\". Of a report also\n"
     "            \"layout_sought\" (first byte, target, selector length, two selector\n"
     "            bytes) and the rows: \"items\", \"remainder\", \"answer\" and \"verdict\".\n"
     "            A row has its \"kind\" and \"word\" and, as \"row\", its bytes. A Number\n"
     "            has \"value\", the shortest decimal, \"double\", its 64 bits, and the\n"
     "            exact fraction in two whole numbers, \"above\" the line and\n"
     "            \"divisor\"; other rows have \"code\" or \"number\", and what is known of\n"
     "            it in \"text\" or \"reason\". A State for whose code document 003\n"
     "            prints none has \"no_state\" true and, as \"called\", what it calls the\n"
     "            code, null if it has no row for it. An item has \"prn\", \"table\",\n"
     "            \"name\", \"slot\" and \"unit\", null where there is none. A frame that\n"
     "            the adapter marks has the refusal null. What is passed over is said\n"
     "            on the error output.\n"},
    {"check", "SUPPLEMENT",
     "test a supplement and say what it holds",
     "Says whether the library accepts the file, and how many bytes, SLOTs by form,\n"
     "PRNs, layouts and selector lengths it has; or the refusal in words with its\n"
     "number, and number, place, kind and bytes of the first record with a fault, with\n"
     "exit status 1. The empty file is accepted: the SAE tables alone.\n"
     "\n"
     "What is accepted but can show nothing is named: PRNs of layouts that are in\n"
     "neither table; layouts whose selector is longer than that of their header, which\n"
     "no frame uses; and layouts with items whose selector is shorter, which a frame\n"
     "uses only if its data end with the selector.\n"
     "\n"
     "A file in the earlier form of layouts, before selector lengths, is refused. If\n"
     "length and kinds of a refused file fit that form, a line says so.\n", ""},
    {"compile", "TEXT SUPPLEMENT",
     "make a supplement from its text",
     "Reads TEXT, a record a line, and writes SUPPLEMENT, if the library accepts it.\n"
     "Bad text and refused records are named with their line; then no file is\n"
     "written, and what stood at SUPPLEMENT stays. TEXT may be - for the standard\n"
     "input.\n"
     "\n"
     "  slot UNM-08-300 multiplier 1 divisor 10 offset -400 raw 0 to 250\n"
     "  prn F001 UNM-08-300\n"
     "  layout header 08 6B selector 41 prns 1025 F001\n"
     "  layout header 31 no selector no prns\n"
     "  selector header 08 6A length 2\n"
     "  layout header 08 6A selector 02 0C prns F001\n"
     "  # comment\n"
     "\n"
     "slot      a SLOT's form, width and number; its value is (raw x multiplier +\n"
     "          offset) / divisor, for raw numbers within the limits. The forms are\n"
     "          UNM, SNM, SED, BMP, ASC, BCD, BMM, SFP and PKT. Numbers are decimal;\n"
     "          raw limits of SNM may be negative.\n"
     "prn       a PRN in four hexadecimal digits, and its SLOT.\n"
     "layout    the header in hexadecimal: with bit H = 0 the first byte, its priority\n"
     "          bits zero, and the target; with H = 1 the whole first byte alone. Then\n"
     "          the selector, the first data bytes, by which the layouts of a header\n"
     "          are told apart, and up to sixteen PRNs of the items behind it.\n"
     "selector  for the frames of a header, written as in a layout, how many data\n"
     "          bytes are the selector: 0, 1 or 2. Without such a line it is 1. If\n"
     "          the data are shorter, the selector is what there is of them.\n"
     "\n"
     "With length 0 the layout with no selector serves all frames of the header, and\n"
     "its items begin with the first data byte. With length 2 requests and answers of\n"
     "J1979 are told apart by test mode and PID. A length holds for all frames of its\n"
     "header; layouts that it leaves without use are named, here and by check. Text\n"
     "from before selector lengths means what it meant.\n", ""},
    {"show", "SUPPLEMENT",
     "show a supplement as text",
     "Writes the supplement as text that compile turns into the same bytes, with the\n"
     "names of PRNs as comments; see 'rakhubole help compile'. What the library\n"
     "refuses is not shown: the message says why, and the exit status is 1.\n", ""},
    {"frame", "[--bus BUS] BYTE.. [/ BYTE..]",
     "show the parts of a frame",
     "Shows header, data, check byte and response of a frame, or why the library\n"
     "refuses it, with exit status 1. The response stands behind a slash. BUS is\n"
     "j1850, which is meant if none is said, or iso9141, which has no response.\n"
     "\n"
     "  rakhubole frame 48 6B 10 41 65 80 29\n"
     "  rakhubole frame 631AF139 / 1234AC\n"
     "  rakhubole frame --bus iso9141 48 6B 10 41 65 80 E9\n", ""},
    {"send", "[--bus BUS] HEADER DATA [RESPONSE]",
     "make the bytes of a frame",
     "Writes the bytes to send, check bytes included, the response behind a slash,\n"
     "as report and frame read them; or says why the library refuses the parts, with\n"
     "exit status 1. The parts are given without check bytes; - or \"\" is none. BUS\n"
     "is j1850, which is meant if none is said, or iso9141, which has no response.\n"
     "\n"
     "  rakhubole send 486B10 416580\n"
     "  rakhubole send \"63 1A F1\" - 1234\n"
     "  rakhubole send --bus iso9141 686AF1 010C\n", ""},
    {"pack", "[--bus BUS] LOG STREAM",
     "make a stream of a log, to try report --adapter",
     "Writes STREAM: each frame of LOG as the record that a cable adapter sends, in\n"
     "their order and unread, so that 'rakhubole report --adapter' shows the same\n"
     "reports and refusals. What the adapter of the log says, or marks as damaged, is\n"
     "named and left out. No ticks are written.\n"
     "\n"
     "A line that is none of a log is named, and so is a frame of more than 12 bytes,\n"
     "which no record holds; then no file is written, and what stood at STREAM stays.\n"
     "A log without a frame makes none either. LOG may be - for the standard input.\n"
     "BUS is that of the log, as for report.\n"
     "\n"
     "  rakhubole pack trip.log trip.stream\n"
     "  rakhubole report --adapter van.sup trip.stream\n"
     "  cat trip.stream | rakhubole report --adapter van.sup -\n", ""}};

enum { HELPS = sizeof helps / sizeof *helps };

static const struct help *find_help(const char *command)
{
    for (size_t i = 0; i < HELPS; i++)
        if (strcmp(helps[i].command, command) == 0)
            return &helps[i];
    return NULL;
}

const char *help_operands(const char *command)
{
    const struct help *help = find_help(command);
    return help ? help->operands : NULL;
}

void put_overview(FILE *file)
{
    fputs("Reads frames of SAE J1850 or ISO 9141-2 and shows what they say, by the SAE\n"
          "tables and a supplement of records from makers.\n\n", file);
    for (size_t i = 0; i < HELPS; i++)
        fprintf(file, "  rakhubole %s %s\n      %s\n", helps[i].command, helps[i].operands,
                helps[i].summary);
    fputs("  rakhubole help [COMMAND]\n      say more\n"
          "  rakhubole --version\n      say the version of the library's interface\n\n"
          "BUS is " BUS_WORDS "; j1850 is meant if none is said.\n"
          "Exit status: 0; 1 if what was given is refused, or with --strict if a frame is\n"
          "not Clear; 2 for wrong arguments and for files that cannot be read or written.\n",
          file);
}

bool put_help(const char *command)
{
    const struct help *help = find_help(command);
    if (help)
        printf("rakhubole %s %s\n\n%s%s", command, help->operands, help->text, help->options);
    return help != NULL;
}
