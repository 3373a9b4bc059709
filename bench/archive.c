#include "calls.h"

#include "rakhubole.h"

const struct calls archive_calls = {
    "archive", rakhubole_j1850_read, rakhubole_j1850_write, rakhubole_supplement_check,
    rakhubole_j1850_report, rakhubole_iso9141_read, rakhubole_iso9141_write,
    rakhubole_iso9141_report, rakhubole_stream_read, rakhubole_stream_advance,
    rakhubole_stream_end, rakhubole_stream_place,
};
