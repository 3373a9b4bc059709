#!/usr/bin/env python3
"""First inputs for the fuzz targets: the vector files in the form that the targets read.

    seeds.py CRATES FOLDER    writes FOLDER/CALL/NUMBER for each case that is short enough

A case gives an input that holds its bytes as they are. Where the target has flags that keep a damaged
copy acceptable, it gives a second one with them, and with a step for each record of a supplement.
"""
import pathlib
import sys

sys.path.insert(0, str(pathlib.Path(__file__).resolve().parents[1] / "tools"))
from c_names import c_names

FORMAT = c_names("host/format.h")
MOST_SEED = 400
MOST_LENGTH = 15                  # of a run behind a short length
ANY_HEADER_LENGTH = 1
FITTED = 2
SEALED = 3                        # on ISO 9141-2 fitted too
SEALED_AND_MENDED = 7
MENDED = 4
ANY_STATE = 1
RAW_BYTES = 0x17                  # damage; the other steps are the kinds of records
RECORD_SIZES = {FORMAT.RECORD_SLOT: FORMAT.SLOT_SIZE, FORMAT.RECORD_PRN: FORMAT.PRN_SIZE,
                FORMAT.RECORD_LAYOUT: FORMAT.LAYOUT_SIZE,
                FORMAT.RECORD_SELECTOR: FORMAT.SELECTOR_SIZE}
END = b"\0"
# Of a stream: one cut, the length of a part and the room lent; 240 is a part of 64 bytes.
STEP_CUT = [1, 240]
BYTE_BY_BYTE = [1, 1, FORMAT.FRAME_MOST]
# By the letter of a line: the target; of a frame case also the runs of its call, and the flags of
# the inputs that it gives.
FRAME_CALLS = {"R": ("read", 2, [0, SEALED]), "W": ("write", 3, [ANY_HEADER_LENGTH]),
               "r": ("iso_read", 1, [0, SEALED]),
               "w": ("iso_write", 2, [ANY_HEADER_LENGTH, ANY_HEADER_LENGTH | FITTED])}
REPORT_CALLS = {"J": "report", "I": "iso_report"}


def short_run(run):
    if len(run) > MOST_LENGTH:
        raise ValueError("run too long")
    return bytes([len(run)]) + run


def raw_steps(run):
    pieces = [run[at:at + 255] for at in range(0, len(run), 255)]
    return b"".join(bytes([RAW_BYTES, len(piece)]) + piece for piece in pieces) + END


def layout_step(record):
    count, first = min(record[FORMAT.LAYOUT_COUNT], FORMAT.LAYOUT_PRNS), FORMAT.LAYOUT_PRN_LIST
    prns = b"".join(END + record[at:at + 2] for at in range(first, first + 2 * count, 2))
    length = min(record[FORMAT.LAYOUT_SELECTOR_LENGTH], FORMAT.SELECTOR_MOST)
    selector_end = FORMAT.LAYOUT_SELECTOR + length
    return record[:selector_end] + record[FORMAT.LAYOUT_COUNT:first] + prns


def record_step(record):
    """The step that puts this record, if its fields are in range."""
    if record[0] == FORMAT.RECORD_LAYOUT:
        return layout_step(record)
    if record[0] == FORMAT.RECORD_SELECTOR:
        return record
    form = FORMAT.SLOT_FORM if record[0] == FORMAT.RECORD_SLOT else FORMAT.PRN_FORM
    counted_from_0 = bytes([record[form] - 1 & 255, record[form + 1] - 1 & 255])
    return record[:form] + counted_from_0 + record[form + 2:]


def record_steps(run):
    steps, at = b"", 0
    while at < len(run):
        length = RECORD_SIZES.get(run[at], 1)
        if length == 1 or at + length > len(run):
            return steps + raw_steps(run[at:])
        steps += record_step(run[at:at + length])
        at += length
    return steps + END


def columns(line):
    """The three runs of a frame case, and the length lent."""
    runs = [bytes.fromhex(line[at + 3:at + 3 + 2 * int(line[at:at + 2], 16)]) for at in (2, 38, 74)]
    return runs, int(line[110:112], 16)


def frame_seeds(line):
    runs, lent = columns(line)
    call, run_count, flags = FRAME_CALLS[line[0]]
    parts = b"".join(map(short_run, runs[:run_count]))
    if line[0] in "Ww":
        parts += bytes([min(lent, MOST_LENGTH)])
    return call, [bytes([flag]) + parts for flag in flags]


def supplement_seeds(line):
    supplement = bytes.fromhex(line[5:])
    return "check", [raw_steps(supplement), record_steps(supplement)]


def report_seeds(line):
    bus, *words = line.split(" ")
    supplement, first, response = (bytes.fromhex(words[at]) for at in (1, 3, 5))
    frame = bytes.fromhex(words[6]) + short_run(first)
    if bus == "J":
        frame += short_run(response)
    return REPORT_CALLS[bus], [END + frame + raw_steps(supplement),
                               bytes([SEALED_AND_MENDED]) + frame + record_steps(supplement)]


def stream_seeds(line):
    """The step as it is; from a fresh state also with its records mended, and byte by byte."""
    state, length = bytes.fromhex(line[2:50]), int(line[51:53], 16)
    part, lent = bytes.fromhex(line[54:54 + 2 * length]), int(line[183:185], 16)
    step = bytes(STEP_CUT + [min(lent, MOST_LENGTH)]) + part
    if any(state):
        return "stream", [bytes([ANY_STATE]) + state + step]
    return "stream", [END + step, bytes([MENDED]) + step, END + bytes(BYTE_BY_BYTE) + part]


def main():
    crates, folder = map(pathlib.Path, sys.argv[1:])
    makers = {"frame_vectors": frame_seeds, "supplement_vectors": supplement_seeds,
              "report_vectors": report_seeds, "stream_vectors": stream_seeds}
    for name, make in makers.items():
        for number, line in enumerate((crates / name / "stdin").read_text().splitlines()):
            try:
                call, seeds = make(line)
            except ValueError:
                continue
            (folder / call).mkdir(parents=True, exist_ok=True)
            for i, seed in enumerate(seeds):
                if len(seed) <= MOST_SEED:
                    (folder / call / f"{number:05}-{i}").write_bytes(seed)


if __name__ == "__main__":
    main()
