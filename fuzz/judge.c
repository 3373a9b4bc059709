#include "judge.h"

one_run_call judge_check, judge_iso_read;
two_run_call judge_read;
two_run_output_call judge_iso_write, judge_iso_report;
three_run_output_call judge_write, judge_report;
state_call judge_stream_end, judge_stream_place;
state_output_call judge_stream_read;
state_change_call judge_stream_advance;

const struct calls judge_calls = {
    "judge", judge_read, judge_write, judge_check, judge_report,
    judge_iso_read, judge_iso_write, judge_iso_report,
    judge_stream_read, judge_stream_advance, judge_stream_end, judge_stream_place,
};
