#include "words.h"

#include "rakhubole.h"

#include <stddef.h>

const char *refusal_words(unsigned refusal)
{
    switch (refusal) {
    case RAKHUBOLE_OVER_TWELVE_BYTES: return "more than 12 bytes in all";
    case RAKHUBOLE_FIRST_RUN_SHORT: return "shorter than its header and check byte";
    case RAKHUBOLE_CHECK_BYTE_WRONG: return "the check byte is wrong";
    case RAKHUBOLE_TYPE_UNASSIGNED: return "the message type is unassigned";
    case RAKHUBOLE_RESPONSE_CHECK_BYTE_WRONG: return "the check byte of the response is wrong";
    case RAKHUBOLE_HEADER_LENGTH_WRONG: return "the header has the wrong length";
    case RAKHUBOLE_OUT_TOO_SHORT: return "the lent output is too short";
    case RAKHUBOLE_FIRST_BYTE_WRONG:
        return "the first byte does not belong to this bus: bit H is 1 or bit K is 0";
    case RAKHUBOLE_SUPPLEMENT_TOO_LONG: return "more than 16,384 bytes";
    case RAKHUBOLE_RECORD_KIND_UNKNOWN: return "no such kind of record";
    case RAKHUBOLE_RECORD_CUT: return "cut by the end of the file";
    case RAKHUBOLE_FIELD_OUT_OF_RANGE: return "a field is outside its range";
    case RAKHUBOLE_KEY_TWICE: return "already in an earlier record";
    case RAKHUBOLE_KEY_IN_SAE: return "already in the SAE tables";
    case RAKHUBOLE_RESPONSE_FORBIDDEN:
        return "a module answered unasked: this message allows no response";
    case RAKHUBOLE_RESPONSE_MISSING:
        return "the module did not answer, or the adapter left its answer out";
    case RAKHUBOLE_RESPONSE_TOO_FEW:
        return "the answer was cut short: this message needs data and a check byte";
    case RAKHUBOLE_RESPONSE_TOO_MANY:
        return "more than one module answered, or one chatters: one byte is allowed";
    case RAKHUBOLE_STREAM_KIND_UNKNOWN:
        return "bytes were lost or added, or this is no such stream: no record begins here, and "
               "no more is read";
    case RAKHUBOLE_STREAM_RECORD_WRONG:
        return "a damaged record: its lengths are over 12 together, or an unused byte is not zero";
    case RAKHUBOLE_STREAM_CUT:
        return "the stream ended inside a record: the cable was pulled, or the recording stopped";
    default: return "a refusal without words";
    }
}

const char *sending_words(unsigned refusal)
{
    switch (refusal) {
    case RAKHUBOLE_RESPONSE_FORBIDDEN: return "this message allows no response, and one is given";
    case RAKHUBOLE_RESPONSE_MISSING: return "this message needs a response, and none is given";
    case RAKHUBOLE_RESPONSE_TOO_MANY:
        return "this message allows one response byte, and more are given";
    default: return refusal_words(refusal);
    }
}

const char *unknown_words(unsigned unknown)
{
    switch (unknown) {
    case RAKHUBOLE_UNKNOWN_PRN: return "this PRN is in neither table";
    case RAKHUBOLE_UNKNOWN_PLACE: return "the place is lost behind a PRN that is in neither table";
    case RAKHUBOLE_UNKNOWN_SLOT: return "no SLOT joins this row";
    case RAKHUBOLE_UNKNOWN_FORM: return "this form or width is not decoded";
    case RAKHUBOLE_UNKNOWN_STATE: return "the code is outside the SLOT's states";
    case RAKHUBOLE_UNKNOWN_WIDTH: return "wider than 32 bits";
    case RAKHUBOLE_UNKNOWN_RESPONSE: return "response data are not decoded";
    case RAKHUBOLE_UNKNOWN_LAYOUT: return "no layout for this header and selector";
    default: return "no reason is known for this number";
    }
}

const char *row_word(unsigned row_kind)
{
    static const char *const words[] = {
        "Number", "State",   "Bits", "Text",     "Digits", "Invalid",
        "Short",  "Unknown", "Left", "Answered", "verdict"};
    if (row_kind < RAKHUBOLE_ROW_NUMBER || row_kind > RAKHUBOLE_ROW_VERDICT)
        return "no such kind";
    return words[row_kind - RAKHUBOLE_ROW_NUMBER];
}

const char *verdict_word(unsigned verdict)
{
    switch (verdict) {
    case RAKHUBOLE_CLEAR: return "Clear";
    case RAKHUBOLE_FLAGGED: return "Flagged";
    case RAKHUBOLE_VERDICT_UNKNOWN: return "Unknown";
    default: return "no such verdict";
    }
}

const char *verdict_reason(unsigned verdict)
{
    switch (verdict) {
    case RAKHUBOLE_CLEAR: return "every line has a value and no bit is left over";
    case RAKHUBOLE_FLAGGED: return "a line is Invalid or Short, or bits are left over";
    case RAKHUBOLE_VERDICT_UNKNOWN: return "a line could not be decoded";
    default: return "take it for Unknown";
    }
}

const char *response_words(unsigned response_kind)
{
    switch (response_kind) {
    case 0: return "none allowed";
    case 1: return "one address";
    case 2: return "one or more addresses";
    case 3: return "data and their check byte";
    default: return "no such kind";
    }
}

const char *form_name(unsigned form)
{
    static const char *const names[] = {"UNM", "SNM", "SED", "BMP", "ASC",
                                        "BCD", "BMM", "SFP", "PKT"};
    return form >= FORM_UNM && form <= FORM_LAST ? names[form - FORM_UNM] : NULL;
}
