#!/usr/bin/env python3
"""What holds of the tool for more than stored cases.

    properties.py TOOL SAMPLES

Random supplements come back from their text byte for byte; the samples show every kind of line;
JSON loses nothing, and its numbers are as short as can be; fractions are those of their SLOTs, give
the doubles, and stand in the table under --exact; each code of a SLOT with codes between its states
is a printed state, marked as none, or Unknown; selectors of every length choose the layout, and
items stand behind them; random frames have the same report on both buses; a log under the wrong bus
is said to be one exactly if more than half of it is; a log and the stream packed from it have the
same reports; a stream gives what its records are, however it is cut; the guide's example in C shows
what the tool shows; frames of a pipe are shown as they come, with progress where somebody looks.
"""
import itertools
import json
import math
import os
import pathlib
import pty
import random
import re
import select
import socket
import struct
import subprocess
import sys
import tempfile
import time
from fractions import Fraction

TOP = pathlib.Path(__file__).resolve().parents[2]
sys.path.insert(0, str(TOP / "tools"))
from c_names import c_names

FORMAT, NAMES = c_names("host/format.h"), c_names("include/rakhubole.h")
SUPPLEMENTS = 300
NUMBERS = 100
FRACTIONS = 120
FRAMES = 60
PACKS = 20
STREAMS = 150
SEED = 1
SECONDS = 10
REFUSALS = {*range(NAMES.RAKHUBOLE_OVER_TWELVE_BYTES, NAMES.RAKHUBOLE_TYPE_UNASSIGNED + 1),
            *range(NAMES.RAKHUBOLE_RESPONSE_FORBIDDEN, NAMES.RAKHUBOLE_RESPONSE_TOO_MANY + 1),
            NAMES.RAKHUBOLE_RESPONSE_CHECK_BYTE_WRONG}
STREAM_REFUSALS = set(range(NAMES.RAKHUBOLE_STREAM_KIND_UNKNOWN, NAMES.RAKHUBOLE_STREAM_CUT + 1))
ISO_REFUSALS = {NAMES.RAKHUBOLE_OVER_TWELVE_BYTES, NAMES.RAKHUBOLE_FIRST_RUN_SHORT,
                NAMES.RAKHUBOLE_CHECK_BYTE_WRONG, NAMES.RAKHUBOLE_FIRST_BYTE_WRONG}
UNKNOWNS = set(range(NAMES.RAKHUBOLE_UNKNOWN_PRN, NAMES.RAKHUBOLE_UNKNOWN_LAYOUT + 1))
ROW_KINDS = set(range(NAMES.RAKHUBOLE_ROW_NUMBER, NAMES.RAKHUBOLE_ROW_VERDICT + 1))
FRACTION_KINDS = {"negative", "not whole", "reducible"}
VERDICTS = {NAMES.RAKHUBOLE_CLEAR, NAMES.RAKHUBOLE_FLAGGED, NAMES.RAKHUBOLE_VERDICT_UNKNOWN}
KEY_SIZES = {FORMAT.RECORD_SLOT: FORMAT.SLOT_KEY_SIZE, FORMAT.RECORD_PRN: FORMAT.PRN_KEY_SIZE,
             FORMAT.RECORD_LAYOUT: FORMAT.LAYOUT_KEY_SIZE,
             FORMAT.RECORD_SELECTOR: FORMAT.SELECTOR_KEY_SIZE}
# PRNs whose SLOTs have codes between two states: the width, and the states that are printed.
STATES = {"1808": (6, {0, 1, 2, 4, 8, 0x10, 0x20}),
          "1810": (6, {0, 1, 0x10, *range(0x20, 0x26)}),
          "1806": (8, {0, 1, 2, 4, 8, 0x10, 0x20, 0x40, 0x80}),
          "1047": (8, {1, 2, 4, 8, 0x10})}
LOGS = {"j1850": "van.log", "iso9141": "iso.log"}
FRAME = b"48 6B 10 41 65 80 29\n"
ISO_FRAME = b"48 6B 10 41 65 80 E9\n"
PAUSE = 0.5
STEPS = rb"(\r\x1b\[K%s \d+)+\r\x1b\[K"


def edge(chance, low, high):
    """A number of the range, often one of its ends."""
    return chance.choice((low, high, chance.randint(low, high)))


def number(value, size):
    return (value & (1 << 8 * size) - 1).to_bytes(size, "big")


def random_slot(chance):
    form = chance.randint(FORMAT.FORM_UNM, FORMAT.FORM_LAST)
    is_signed = form == FORMAT.FORM_SNM
    least, most = (-(1 << 31), (1 << 31) - 1) if is_signed else (0, (1 << 32) - 1)
    low, high = sorted((edge(chance, least, most), edge(chance, least, most)))
    return (bytes((FORMAT.RECORD_SLOT, form, edge(chance, 1, FORMAT.WIDTH_MOST)))
            + number(chance.randint(1000, 65535), 2)
            + number(edge(chance, 0, 65535), 2) + number(edge(chance, 1, 65535), 2)
            + number(edge(chance, -(1 << 31), (1 << 31) - 1), 4) + number(low, 4)
            + number(high, 4))


def random_prn(chance):
    return (bytes((FORMAT.RECORD_PRN,)) + number(chance.randint(0xF000, 0xF7FF), 2)
            + bytes((chance.randint(FORMAT.FORM_UNM, FORMAT.FORM_LAST),
                     edge(chance, 1, FORMAT.WIDTH_MOST)))
            + number(edge(chance, 0, 65535), 2))


def random_header(chance):
    """The first byte and target of a record, of a header of three bytes or of one."""
    first, target = chance.randrange(256), chance.randrange(256)
    if chance.random() < 0.5:
        return bytes((first & FORMAT.TYPE_BITS, target))
    return bytes((first | FORMAT.BIT_H, 0))


def random_layout(chance):
    length, count = chance.randint(0, FORMAT.SELECTOR_MOST), edge(chance, 0, FORMAT.LAYOUT_PRNS)
    selector = chance.randbytes(length).ljust(FORMAT.SELECTOR_MOST, b"\0")
    prns = b"".join(number(chance.randrange(65536), 2) for _ in range(count))
    record = (bytes((FORMAT.RECORD_LAYOUT,)) + random_header(chance) + bytes((length,)) + selector
              + bytes((count,)) + prns)
    return record.ljust(FORMAT.LAYOUT_SIZE, b"\0")


def random_selector(chance):
    length = chance.randint(0, FORMAT.SELECTOR_MOST)
    return bytes((FORMAT.RECORD_SELECTOR,)) + random_header(chance) + bytes((length,))


def random_supplement(chance):
    """Records with different keys, of all kinds."""
    records = {}
    for _ in range(chance.randrange(40)):
        record = chance.choice((random_slot, random_prn, random_layout, random_selector))(chance)
        records.setdefault(record[:KEY_SIZES[record[0]]], record)
    return b"".join(records.values())


def test_round_trips(tool, _samples):
    """Each accepted supplement is the same after show and compile."""
    chance, accepted = random.Random(SEED), 0
    with tempfile.TemporaryDirectory() as name:
        one, text, other = (pathlib.Path(name) / n for n in ("one", "text", "other"))
        for _ in range(SUPPLEMENTS):
            one.write_bytes(random_supplement(chance))
            with open(text, "wb") as file:
                shown = subprocess.run([tool, "show", one], stdout=file, stderr=subprocess.DEVNULL)
            if shown.returncode:
                continue
            accepted += 1
            subprocess.run([tool, "compile", text, other], stdout=subprocess.DEVNULL)
            if not other.is_file() or other.read_bytes() != one.read_bytes():
                yield f"a supplement is changed by its text: {one.read_bytes().hex()}"
            other.unlink(missing_ok=True)
    if accepted < SUPPLEMENTS * 9 // 10:
        yield f"only {accepted} of {SUPPLEMENTS} supplements are accepted"


def objects(tool, supplement, log, bus="j1850", options=(), **hooks):
    run = subprocess.run([tool, "report", "--json", "--bus", bus, *options, supplement, log],
                         stdout=subprocess.PIPE, stderr=subprocess.DEVNULL, check=True)
    return [json.loads(line, **hooks) for line in run.stdout.decode("ascii").splitlines()]


def rows_of(report):
    return [*report["items"], report["remainder"], report["answer"], report["verdict"]]


def numbers_of(rows, kind):
    return {row["number"] for row in rows if row["kind"] == kind}


def refusals_of(reports):
    return {report["refusal"] for report in reports if report["refusal"]}


def all_rows(reports):
    return [row for report in reports if report["refusal"] == 0 for row in rows_of(report)]


def numbers_in(reports):
    return [row for row in all_rows(reports) if row["kind"] == NAMES.RAKHUBOLE_ROW_NUMBER]


def fraction_kinds(above, divisor):
    """What is worth a sample in a fraction."""
    return {word for word, holds in (("negative", above < 0 and divisor > 1),
                                     ("not whole", above % divisor != 0),
                                     ("reducible", above != 0 and math.gcd(above, divisor) > 1))
            if holds}


def test_samples(tool, samples):
    """The samples show every refusal of the reader, row kind, Unknown number and verdict, and
    fractions of each kind; that of ISO 9141-2 shows its refusals and the verdicts."""
    reports, iso = (objects(tool, samples / "van.sup", samples / log, bus)
                    for bus, log in LOGS.items())
    rows = all_rows(reports)
    for what, wanted, found in (
            ("refusals", REFUSALS, refusals_of(reports)),
            ("refusals of ISO 9141-2", ISO_REFUSALS, refusals_of(iso)),
            ("verdicts on ISO 9141-2", VERDICTS,
             numbers_of(all_rows(iso), NAMES.RAKHUBOLE_ROW_VERDICT)),
            ("kinds of rows", ROW_KINDS, {r["kind"] for r in rows}),
            ("Unknown numbers", UNKNOWNS, numbers_of(rows, NAMES.RAKHUBOLE_ROW_UNKNOWN)),
            ("fractions", FRACTION_KINDS,
             set().union(*(fraction_kinds(r["above"], r["divisor"]) for r in numbers_in(reports)))),
            ("response kinds", {0, 1, 2}, numbers_of(rows, NAMES.RAKHUBOLE_ROW_ANSWERED)),
            ("verdicts", VERDICTS, numbers_of(rows, NAMES.RAKHUBOLE_ROW_VERDICT))):
        if wanted != found:
            yield f"of the {what}, the samples do not show {sorted(wanted - found)}"


def number_body(row):
    """A Number's body of its three parts."""
    return struct.pack(">dqH", row["value"], row["above"], row["divisor"])


def test_json(tool, samples):
    """Each object names its bus, and each row's fields say what its bytes say: of a Number the
    double to the last bit, the whole number above the line and the divisor."""
    for bus, log in LOGS.items():
        reports = objects(tool, samples / "van.sup", samples / log, bus)
        if {report.get("bus") for report in reports} != {bus}:
            yield f"the bus is lost in {log}"
        for row in all_rows(reports):
            body = bytes.fromhex(row["row"])[1:]
            is_number = row["kind"] == NAMES.RAKHUBOLE_ROW_NUMBER
            if row["row"][:2] != f"{row['kind']:02X}":
                yield f"the kind is lost: {row}"
            if is_number and number_body(row) != body:
                yield f"a part of the Number is changed: {row}"
            if is_number and bytes.fromhex(row["double"]) != struct.pack(">d", row["value"]):
                yield f"the bits of the double are changed: {row}"
            if not is_number and row["kind"] != NAMES.RAKHUBOLE_ROW_SHORT:
                if row.get("code", row.get("number")) != int.from_bytes(body, "big"):
                    yield f"the code is changed: {row}"


def digits(text):
    """The digits of a decimal that count."""
    return text.partition("e")[0].replace("-", "").replace(".", "").strip("0")


def test_numbers(tool, _samples):
    """A Number's decimal gives the same double and has no digit too many."""
    chance = random.Random(SEED)
    with tempfile.TemporaryDirectory() as name:
        text, supplement, log = (pathlib.Path(name) / n for n in ("text", "supplement", "log"))
        text.write_text("slot SNM-32-1000 multiplier 7 divisor 65521 offset -5 raw -2147483648 to "
                        "2147483647\nprn F001 SNM-32-1000\n"
                        "layout header 08 6B selector 41 prns 0004 F001\n", encoding="ascii")
        subprocess.run([tool, "compile", text, supplement], stdout=subprocess.DEVNULL, check=True)
        with open(log, "wb") as file:
            for _ in range(NUMBERS):
                data = bytes((0x41, chance.randrange(256))) + chance.randbytes(4)
                subprocess.run([tool, "send", "486B10", data.hex()], stdout=file, check=True)
        reports = objects(tool, supplement, log, parse_float=str, parse_int=str)
    rows = [row for report in reports for row in report["items"]]
    if len(rows) != 2 * NUMBERS:
        yield f"{2 * NUMBERS} Numbers are {len(rows)}"
    for row in rows:
        wanted, = struct.unpack(">d", bytes.fromhex(row["double"]))
        if float(row["value"]) != wanted or digits(row["value"]) != digits(repr(wanted)):
            yield f"a Number is not the shortest decimal of its double {wanted!r}: {row}"


def random_scale(chance, i):
    """A SLOT of numbers, its PRN and layout as text, a raw number as data, and its fraction."""
    form, width = chance.choice(("UNM", "SNM")), edge(chance, 1, FORMAT.WIDTH_SHOWN_MOST)
    low = -(1 << width - 1) if form == "SNM" else 0
    high = low + (1 << width) - 1
    multiplier, divisor = edge(chance, 0, 65535), edge(chance, 1, 65535)
    offset, raw = edge(chance, -(1 << 31), (1 << 31) - 1), edge(chance, low, high)
    text = (f"slot {form}-{width:02}-{1000 + i} multiplier {multiplier} divisor {divisor} "
            f"offset {offset} raw {low} to {high}\nprn F{i:03X} {form}-{width:02}-{1000 + i}\n"
            f"layout header 08 6B selector {i:02X} prns F{i:03X}\n")
    data = bytes((i,)) + number(raw % (1 << width) << -width % 8, (width + 7) // 8)
    return text, data, (raw * multiplier + offset, divisor)


def table(tool, supplement, log, *options):
    return subprocess.run([tool, "report", *options, supplement, log], stdout=subprocess.PIPE,
                          check=True).stdout.decode("ascii").splitlines()


def fraction_faults(tool, supplement, log, bus="j1850"):
    """Each Number's double is its fraction, divided once. --exact puts the fraction in the place of
    the decimal and changes no other line."""
    rows = numbers_in(objects(tool, supplement, log, bus, parse_float=str))
    plain = table(tool, supplement, log, "--bus", bus)
    exact = table(tool, supplement, log, "--bus", bus, "--exact")
    changed = [lines for lines in zip(plain, exact) if lines[0] != lines[1]]
    if len(plain) != len(exact) or len(changed) != len(rows):
        yield f"--exact changes {len(changed)} lines for {len(rows)} Numbers of {log}"
    for row, (line, exact_line) in zip(rows, changed):
        quotient = float(Fraction(row["above"], row["divisor"]))
        bits = struct.pack(">d", quotient)
        if float(row["value"]) != quotient or bytes.fromhex(row["double"]) != bits:
            yield f"the double is not {quotient!r}: {row}"
        unit = f" {row['unit']}" if row["unit"] else ""
        decimal, fraction = f"  {row['value']}{unit}", f"  {row['above']}/{row['divisor']}{unit}"
        if not line.endswith(decimal) or exact_line != line.removesuffix(decimal) + fraction:
            yield f"{line!r} is {exact_line!r} with --exact: {row}"


def test_fractions(tool, samples):
    """Fractions are those of the SLOTs, unreduced, and agree with the doubles and with --exact."""
    chance = random.Random(SEED)
    texts, datas, wanted = zip(*(random_scale(chance, i) for i in range(FRACTIONS)))
    with tempfile.TemporaryDirectory() as name:
        text, supplement, log = (pathlib.Path(name) / n for n in ("text", "supplement", "log"))
        text.write_text("".join(texts), encoding="ascii")
        subprocess.run([tool, "compile", text, supplement], stdout=subprocess.DEVNULL, check=True)
        with open(log, "wb") as file:
            for data in datas:
                subprocess.run([tool, "send", "486B10", data.hex()], stdout=file, check=True)
        reports = objects(tool, supplement, log)
        yield from fraction_faults(tool, supplement, log)
    found = [(row["above"], row["divisor"]) for row in numbers_in(reports)]
    for data, fraction, other in itertools.zip_longest(datas, wanted, found):
        if fraction != other:
            yield f"the fraction of {data.hex()} is {other}, not {fraction}"
    for bus, sample in LOGS.items():
        yield from fraction_faults(tool, samples / "van.sup", samples / sample, bus)


def state_of(row):
    """What the tool says of a code: a text, that there is no state, or that it is Unknown."""
    if row["kind"] == NAMES.RAKHUBOLE_ROW_UNKNOWN:
        return "Unknown" if row["number"] == NAMES.RAKHUBOLE_UNKNOWN_STATE else None
    if row.get("no_state"):
        return "no state" if row["text"] is None and row["called"] else None
    return "state" if row["text"] and "called" not in row else None


def test_states(tool, _samples):
    """Every code of a SLOT is a printed state, lies between two of them, or is Unknown."""
    with tempfile.TemporaryDirectory() as name:
        text, supplement, log = (pathlib.Path(name) / n for n in ("text", "supplement", "log"))
        for prn, (width, states) in STATES.items():
            before = "" if width == 8 else "1807 "
            text.write_text(f"layout header 08 6B selector 41 prns {before}{prn}\n",
                            encoding="ascii")
            subprocess.run([tool, "compile", text, supplement], stdout=subprocess.DEVNULL,
                           check=True)
            with open(log, "wb") as file:
                for code in range(1 << width):
                    subprocess.run([tool, "send", "486B10", f"41{code:02X}"], stdout=file,
                                   check=True)
            for code, report in enumerate(objects(tool, supplement, log)):
                row, inside = report["items"][-1], min(states) <= code <= max(states)
                wanted = "state" if code in states else "no state" if inside else "Unknown"
                if state_of(row) != wanted:
                    yield f"code {code:02X} of PRN {prn} is not shown as {wanted}: {row}"


def runs_of(most):
    """All runs of up to so many bytes that are either of two."""
    return [bytes(run) for count in range(most + 1)
            for run in itertools.product((0x41, 0x0C), repeat=count)]


def selector_headers():
    """Headers of three bytes and of one, as a record has them, as they are sent, and with the
    selector length that a record says, None for no record."""
    for i, length in enumerate((None, *range(FORMAT.SELECTOR_MOST + 1))):
        yield f"08 {i:02X}", f"48{i:02X}10", length
        yield f"{i << 5 | 0x18:02X}", f"{i << 5 | 0x18:02X}", length


def selector_text(headers, prns):
    """The lines of a supplement: the selector lengths, and for each header and selector a layout
    with a PRN of its own."""
    for header, _, length in headers:
        if length is not None:
            yield f"selector header {header} length {length}\n"
    for (header, selector), prn in prns.items():
        words = f"selector {selector.hex(' ')}" if selector else "no selector"
        yield f"prn {prn} UNM-08-101\nlayout header {header} {words} prns {prn}\n"


def selector_fault(report, header, selector, rest, prn):
    """What is wrong in the report of a frame with this selector and these data behind it."""
    key = bytes.fromhex(header).ljust(2, b"\0") + bytes((len(selector),))
    if bytes.fromhex(report["layout_sought"]) != key + selector.ljust(FORMAT.SELECTOR_MOST, b"\0"):
        return "another layout is sought"
    if len(report["items"]) != 1:
        return "another layout is used"
    item, remainder = report["items"][0], report["remainder"]
    found = (item["prn"], item.get("value", item["word"]),
             remainder.get("number", remainder["word"]))
    wanted = (prn, rest[0], 8 * len(rest) - 8) if rest else (prn, "Short", "Short")
    return None if found == wanted else f"{found} is not {wanted}"


def test_selectors(tool, _samples):
    """The selector is the data up to the length said for the header, 1 if none is said, or what there is; the
    layout of just that selector is used, and its item is the byte behind it."""
    headers, selectors = list(selector_headers()), runs_of(FORMAT.SELECTOR_MOST)
    prns = {key: f"{0xF000 + i:04X}" for i, key in
            enumerate(itertools.product((header for header, _, _ in headers), selectors))}
    frames = list(itertools.product(headers, runs_of(FORMAT.SELECTOR_MOST + 1)))
    with tempfile.TemporaryDirectory() as name:
        text, supplement, log = (pathlib.Path(name) / n for n in ("text", "supplement", "log"))
        text.write_text("".join(selector_text(headers, prns)), encoding="ascii")
        subprocess.run([tool, "compile", text, supplement], stdout=subprocess.DEVNULL, check=True)
        with open(log, "wb") as file:
            for (_, sent, _), data in frames:
                subprocess.run([tool, "send", sent, data.hex()], stdout=file, check=True)
        reports = objects(tool, supplement, log)
    if len(reports) != len(frames):
        yield f"{len(frames)} frames with selectors give {len(reports)} reports"
    for ((header, _, length), data), report in zip(frames, reports):
        count = FORMAT.SELECTOR_UNSAID if length is None else length
        selector, rest = data[:count], data[count:]
        fault = selector_fault(report, header, selector, rest, prns[header, selector])
        if fault:
            yield f"with selector length {length}: {fault}: {report}"


def test_buses(tool, samples):
    """A header with data has the same report on both buses, and on ISO 9141-2 the sum."""
    chance, reports = random.Random(SEED), {}
    parts = [(f"{chance.choice((0x48, 0x68)):02X}{chance.choice(('6B10', '6AF1'))}",
              bytes((chance.choice((1, *range(0x41, 0x4B))),)) + chance.randbytes(count % 8))
             for count in range(FRAMES)]
    with tempfile.TemporaryDirectory() as name:
        for bus in LOGS:
            log = pathlib.Path(name) / bus
            with open(log, "wb") as file:
                for header, data in parts:
                    subprocess.run([tool, "send", "--bus", bus, header, data.hex()], stdout=file,
                                   check=True)
            reports[bus] = objects(tool, samples / "van.sup", log, bus)
    for (header, data), one, other in zip(parts, *reports.values()):
        message = bytes.fromhex(header) + data
        if bytes.fromhex(other["first"]) != message + bytes((sum(message) % 256,)):
            yield f"the frame has not its sum: {other}"
        if one["refusal"] or other["refusal"] or rows_of(one) != rows_of(other):
            yield f"the reports of the buses differ: {one}, {other}"


def test_wrong_bus(tool, samples):
    """The other bus is named if more than half of the frames are of it, and only then."""
    for bus, other, right, wrong in (("j1850", "iso9141", FRAME, ISO_FRAME),
                                     ("iso9141", "j1850", ISO_FRAME, FRAME)):
        for count, strange in ((n, k) for n in range(1, 6) for k in range(n + 1)):
            run = subprocess.run([tool, "report", "--bus", bus, samples / "van.sup", "-"],
                                 input=right * (count - strange) + wrong * strange,
                                 stdout=subprocess.DEVNULL, stderr=subprocess.PIPE)
            said = run.stderr.endswith(f" Try --bus {other}\n".encode())
            if run.returncode or said != (2 * strange > count) or (run.stderr and not said):
                yield f"{strange} of {count} frames are not of {bus}: {run.stderr!r}"


def frame_record(first, second=b""):
    runs = (first + second).ljust(FORMAT.FRAME_MOST, b"\0")
    return bytes((FORMAT.STREAM_FRAME, len(first), len(second))) + runs


RECORD = frame_record(bytes.fromhex(FRAME.decode("ascii")))
TICK = bytes((FORMAT.STREAM_TICK,)).ljust(NAMES.RAKHUBOLE_STREAM_TICK_RECORD, b"\0")


def random_line(chance, bus):
    """A line of a log: a frame, accepted or not, or one that holds none."""
    if chance.random() < 0.3:
        return chance.choice(("# a comment", "", "OK", ">010C", "48 6B <DATA ERROR", "NO DATA"))
    count = chance.randint(0, FORMAT.FRAME_MOST)
    first = count if bus == "iso9141" else chance.randint(0, count)
    runs = chance.randbytes(count)
    if chance.random() < 0.5:
        return FRAME.decode("ascii").strip()
    return f"{runs[:first].hex()} / {runs[first:].hex()}"


def without_place(reports, name):
    return [{key: value for key, value in report.items() if key != name} for report in reports]


def test_pack(tool, samples):
    """A log and the stream packed from it have the same reports; records are 15 bytes each."""
    chance = random.Random(SEED)
    with tempfile.TemporaryDirectory() as name:
        log, stream = (pathlib.Path(name) / n for n in ("log", "stream"))
        for bus, i in itertools.product(LOGS, range(PACKS)):
            lines = [FRAME.decode("ascii"), *(random_line(chance, bus) for _ in range(4 * i))]
            log.write_text("\n".join(lines), encoding="ascii")
            subprocess.run([tool, "pack", "--bus", bus, log, stream], stdout=subprocess.DEVNULL,
                           check=True)
            wanted = [report for report in objects(tool, samples / "van.sup", log, bus)
                      if report["refusal"] is not None]
            found = objects(tool, samples / "van.sup", stream, bus, ("--adapter",))
            if without_place(wanted, "line") != without_place(found, "byte"):
                yield f"a stream differs from its log on {bus}: {lines}"
            places = range(0, stream.stat().st_size, NAMES.RAKHUBOLE_STREAM_FRAME_RECORD)
            if [report["byte"] for report in found] != list(places):
                yield f"the places of a packed stream on {bus} are wrong: {found}"


def random_stream(chance):
    """A stream, and what is told of it: places with runs or the refusal."""
    stream, told = b"", []
    for _ in range(chance.randrange(12)):
        place, count = len(stream), chance.randint(0, FORMAT.FRAME_MOST)
        first, runs = chance.randint(0, count), chance.randbytes(count)
        record = frame_record(runs[:first], runs[first:])
        what = chance.random()
        if what < 0.3:
            stream += TICK[:1] + chance.randbytes(len(TICK) - 1)
        elif what < 0.7:
            stream += record
            told.append((place, runs[:first], runs[first:]))
        elif what < 0.8 and count < FORMAT.FRAME_MOST:
            stream += record[:-1] + b"\1"
            told.append((place, NAMES.RAKHUBOLE_STREAM_RECORD_WRONG))
        elif what < 0.9:
            stream += bytes((FORMAT.STREAM_FRAME, 7, 6)) + chance.randbytes(FORMAT.FRAME_MOST)
            told.append((place, NAMES.RAKHUBOLE_STREAM_RECORD_WRONG))
        elif what < 0.95:
            stream += bytes((chance.choice((0, 3, 255)),)) + chance.randbytes(20)
            return stream, [*told, (place, NAMES.RAKHUBOLE_STREAM_KIND_UNKNOWN)]
    return stream, told


def cut_stream(chance, stream, told):
    """Sometimes the stream ends inside its last record, if that was told."""
    is_cut = told and len(stream) == told[-1][0] + NAMES.RAKHUBOLE_STREAM_FRAME_RECORD
    if not is_cut or chance.random() < 0.5:
        return stream, told
    place = told[-1][0]
    return (stream[:chance.randint(place + 1, len(stream) - 1)],
            [*told[:-1], (place, NAMES.RAKHUBOLE_STREAM_CUT)])


def what_is_told(output):
    """Each object of the output as random_stream has it."""
    reports = [json.loads(line) for line in output.decode("ascii").splitlines()]
    return [(report["byte"], report["refusal"])
            if report["refusal"] >= NAMES.RAKHUBOLE_STREAM_KIND_UNKNOWN else
            (report["byte"], bytes.fromhex(report["first"]), bytes.fromhex(report["response"]))
            for report in reports]


def fed(command, parts):
    """Output and exit status of a command that gets each part by a read of its own, which has to
    have room for it."""
    ours, theirs = socket.socketpair(socket.AF_UNIX, socket.SOCK_SEQPACKET)
    with ours, tempfile.TemporaryFile() as out:
        process = subprocess.Popen(command, stdin=theirs, stdout=out, stderr=subprocess.DEVNULL)
        theirs.close()
        try:
            for part in parts:
                ours.send(part)
        except OSError:
            pass  # nothing is read behind an unknown kind
        ours.close()
        status = process.wait(SECONDS)
        out.seek(0)
        return out.read(), status


def random_parts(chance, stream):
    """The stream in parts: all of one byte, or of any lengths."""
    most, parts = chance.choice((1, 4, 40)), []
    while stream:
        count = chance.randint(1, most)
        parts.append(stream[:count])
        stream = stream[count:]
    return parts


def test_cuts(tool, samples):
    """A stream gives its frames and refusals in their order, as a file and however it is cut."""
    chance, refusals = random.Random(SEED), set()
    with tempfile.TemporaryDirectory() as name:
        path = pathlib.Path(name) / "stream"
        for _ in range(STREAMS):
            stream, wanted = cut_stream(chance, *random_stream(chance))
            path.write_bytes(stream)
            refusals |= {told[1] for told in wanted if len(told) == 2}
            command = [tool, "report", "--adapter", "--json", samples / "van.sup"]
            whole = subprocess.run([*command, path], stdout=subprocess.PIPE,
                                   stderr=subprocess.DEVNULL)
            if what_is_told(whole.stdout) != wanted:
                yield f"{stream.hex()} does not give {wanted}: {whole.stdout}"
            if fed([*command, "-"], random_parts(chance, stream)) != (whole.stdout,
                                                                      whole.returncode):
                yield f"a cut stream gives otherwise than the whole: {stream.hex()}"
    if refusals != STREAM_REFUSALS:
        yield f"the random streams miss refusals: {sorted(STREAM_REFUSALS - refusals)}"


# What the guide's example leaves to the firmware.
GUIDE_MAIN = r"""
#include "rakhubole.h"

#include <stdio.h>
#include <unistd.h>

void show_stream(const uint8_t *supplement, size_t supplement_length);
size_t port_read(uint8_t *bytes, size_t room);
void show_rows(uint64_t place, const uint8_t *rows, size_t length);
void show_refusal(uint64_t place, unsigned refusal);

size_t port_read(uint8_t *bytes, size_t room)
{
    ssize_t count = read(STDIN_FILENO, bytes, room);
    return count > 0 ? (size_t)count : 0;
}

void show_rows(uint64_t place, const uint8_t *rows, size_t length)
{
    printf("%llu rows ", (unsigned long long)place);
    for (size_t i = 0; i < length; i++)
        printf("%02X", rows[i]);
    putchar('\n');
}

void show_refusal(uint64_t place, unsigned refusal)
{
    printf("%llu refused %u\n", (unsigned long long)place, refusal);
}

int main(int count, char **values)
{
    static uint8_t supplement[16384];
    FILE *file = count == 2 ? fopen(values[1], "rb") : NULL;
    if (!file)
        return 1;
    show_stream(supplement, fread(supplement, 1, sizeof supplement, file));
    fclose(file);
    return 0;
}
"""


def guide_example(tool, folder):
    """The guide's example, built with the rest that it needs: it shows a stream from its standard
    input, for each frame or refusal a line."""
    guide = (TOP / "docs/GUIDE.md").read_text(encoding="utf-8")
    example, = re.findall(r"```c\n(.*?)```", guide, re.DOTALL)
    (folder / "example.c").write_text(example, encoding="ascii")
    (folder / "main.c").write_text(GUIDE_MAIN, encoding="ascii")
    subprocess.run(["cc", "-std=c99", "-Wall", "-Wextra", "-Wpedantic", "-Werror",
                    f"-I{TOP / 'include'}", folder / "example.c", folder / "main.c",
                    pathlib.Path(tool).with_name("librakhubole.a"), "-o", folder / "example"],
                   check=True)
    return folder / "example"


def example_line(report):
    """An object of the tool as the built example prints it."""
    if report["refusal"]:
        return f"{report['byte']} refused {report['refusal']}"
    return f"{report['byte']} rows " + "".join(row["row"] for row in rows_of(report))


def test_guide(tool, samples):
    """The guide's example compiles and shows what the tool shows."""
    with tempfile.TemporaryDirectory() as name:
        example = guide_example(tool, pathlib.Path(name))
        unknown = pathlib.Path(name) / "unknown.stream"
        unknown.write_bytes(RECORD + b"\0" + RECORD)
        for path in (samples / "van.stream", samples / "damaged.stream", unknown):
            run = subprocess.run([tool, "report", "--adapter", "--json", samples / "van.sup", path],
                                 stdout=subprocess.PIPE)
            wanted = [example_line(json.loads(line)) for line in run.stdout.splitlines()]
            stream = path.read_bytes()
            for size in (1, 7, 64):
                shown, _ = fed([example, samples / "van.sup"],
                               [stream[i:i + size] for i in range(0, len(stream), size)])
                if shown.decode("ascii").splitlines() != wanted:
                    yield f"the guide's example shows of {path.name}: {shown}"


def is_shown(process, word):
    """Whether the process shows this word, though its input goes on."""
    shown = b""
    while word not in shown:
        if not select.select([process.stdout], [], [], SECONDS)[0]:
            return False
        shown += process.stdout.read1()
    return True


def test_as_it_comes(tool, samples):
    """Each frame is shown before the next one comes, that of a stream behind its last byte."""
    for options, parts in (((), [FRAME]), (("--adapter",), [RECORD]),
                           (("--adapter",), [bytes((byte,)) for byte in TICK + RECORD])):
        process = subprocess.Popen([tool, "report", *options, samples / "van.sup", "-"],
                                   stdin=subprocess.PIPE, stdout=subprocess.PIPE)
        for _ in range(3):
            for part in parts:
                process.stdin.write(part)
                process.stdin.flush()
            if not is_shown(process, b"verdict"):
                yield f"a frame of a pipe is not shown before the next one comes: {options}"
                process.kill()
                return
        process.stdin.close()
        if process.wait(SECONDS) != 0 or b"3 frames: 3 Clear" not in process.stdout.read():
            yield f"a pipe is not shown to its end: {options}"


def on_terminal(tool, samples, options, out, parts):
    """What stands on the terminal that has the error output, while two parts come slowly."""
    ours, theirs = pty.openpty()
    process = subprocess.Popen([tool, "report", *options, samples / "van.sup", "-"],
                               stdin=subprocess.PIPE, stdout=theirs if out is None else out,
                               stderr=theirs)
    process.stdin.write(parts[0])
    process.stdin.flush()
    time.sleep(PAUSE)
    process.stdin.write(parts[1])
    process.stdin.close()
    process.wait(SECONDS)
    os.close(theirs)
    shown = b""
    while select.select([ours], [], [], SECONDS)[0]:
        try:
            shown += os.read(ours, 4096)
        except OSError:
            break
    os.close(ours)
    return shown


def test_progress(tool, samples):
    """Progress is shown where the output goes elsewhere, and is taken away before a message."""
    log, stream, steps = (FRAME, FRAME + b"OK\n"), (RECORD, TICK + RECORD), STEPS % b"line"
    for options, out, parts, wanted in (
            ((), subprocess.DEVNULL, log, steps),
            (("--json",), subprocess.DEVNULL, log,
             steps + rb"rakhubole: line 3 passed over[^\r]*\r\n"),
            (("--adapter",), subprocess.DEVNULL, stream, STEPS % b"byte"),
            ((), None, log, rb"[^\x1b]*(\x1b\[(32|0)m[^\x1b]*)*")):
        shown = on_terminal(tool, samples, options, out, parts)
        if not re.fullmatch(wanted, shown):
            yield f"on a terminal stands {shown!r}, not {wanted!r}"


TESTS = (test_round_trips, test_samples, test_json, test_numbers, test_fractions, test_states,
         test_selectors, test_buses, test_wrong_bus, test_pack, test_cuts, test_guide,
         test_as_it_comes, test_progress)


def main():
    tool, samples = sys.argv[1], pathlib.Path(sys.argv[2])
    faults = [fault for test in TESTS for fault in test(tool, samples)]
    for fault in faults:
        print(f"tool-test: {fault}")
    print(f"tool-test: {SUPPLEMENTS} random supplements, {2 * NUMBERS} Numbers, "
          f"{FRACTIONS} fractions, every code of {len(STATES)} SLOTs, selectors of every length, "
          f"{FRAMES} frames on both buses, every kind of line, JSON, the wrong bus, {2 * PACKS} "
          f"packed logs, {STREAMS} random streams cut at random, the guide's example, pipes and "
          f"progress: {len(faults)} faults")
    return 1 if faults else 0


if __name__ == "__main__":
    sys.exit(main())
