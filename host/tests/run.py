#!/usr/bin/env python3
"""Runs the commands of the case files and compares what they print with what is stored.

    run.py TOOL SAMPLES CASES..           compare; exit 1 if anything differs
    run.py --write TOOL SAMPLES CASES..   store what the commands print now

A case file is text. After a comment (#) or a blank line, a case is

    $ command      run by sh, in a new folder for each file that holds the samples
    | line         of its standard output
    ! line         of its error output
    ? status       if it is not 0

In place of $, a % runs the command on a terminal. Characters that cannot be printed are stored as
<1B>. The command `bytes 02 F0 01` writes those bytes, `rakhubole` is TOOL, and `odd` stands for
TOOL with the ending -odd.
"""
import difflib
import os
import pathlib
import pty
import shutil
import subprocess
import sys
import tempfile

SIGNS = "$%"
TIME_LIMIT = 60


class Case:
    def __init__(self, sign, command):
        self.sign, self.command, self.wanted = sign, command, []

    def lines(self, printed):
        return [f"{self.sign} {self.command}", *printed]


def read_cases(text):
    """The cases of a file, and lines between them as they are."""
    parts = []
    for line in text.split("\n"):
        if line[:1] and line[0] in SIGNS and line[1:2] == " ":
            parts.append(Case(line[0], line[2:]))
        elif line[:1] in ("|", "!", "?") and parts and isinstance(parts[-1], Case):
            parts[-1].wanted.append(line)
        else:
            parts.append(line)
    return parts


def shown(data, mark):
    """The output in lines, each behind its mark."""
    text = "".join(c if c == "\n" or " " <= c <= "~" else f"<{ord(c):02X}>"
                   for c in data.decode("latin-1"))
    lines = text.split("\n")
    if lines[-1] == "":
        lines.pop()
    else:
        lines[-1] += "<no newline>"
    return [f"{mark} {line}".rstrip(" ") if not line else f"{mark} {line}" for line in lines]


def drain(terminal):
    """All that was written to a terminal whose other side is closed."""
    data = b""
    while True:
        try:
            more = os.read(terminal, 4096)
        except OSError:
            return data
        if not more:
            return data
        data += more


def run(case, folder, environment):
    """What the command prints, as stored."""
    command = {"args": ["sh", "-c", case.command], "cwd": folder, "env": environment,
               "stdin": subprocess.DEVNULL}
    if case.sign == "$":
        process = subprocess.run(**command, stdout=subprocess.PIPE, stderr=subprocess.PIPE,
                                 timeout=TIME_LIMIT)
        lines = shown(process.stdout, "|") + shown(process.stderr, "!")
    else:
        ours, theirs = pty.openpty()
        process = subprocess.Popen(**command, stdout=theirs, stderr=theirs)
        os.close(theirs)
        lines = shown(drain(ours), "|")
        os.close(ours)
        process.wait(TIME_LIMIT)
    if process.returncode:
        lines.append(f"? {process.returncode}")
    return lines


def prepare(folder, tool, samples):
    """A folder with the samples, and the environment that finds the programs."""
    programs = folder / ".programs"
    programs.mkdir()
    tool = pathlib.Path(tool).resolve()
    for name, path in (("rakhubole", tool), ("odd", tool.with_name(tool.name + "-odd"))):
        (programs / name).symlink_to(path)
    helper = programs / "bytes"
    helper.write_text("#!/bin/sh\nexec '%s' -c 'import sys\n"
                      "sys.stdout.buffer.write(bytes.fromhex(\"\".join(sys.argv[1:])))' \"$@\"\n"
                      % sys.executable)
    helper.chmod(0o755)
    for sample in pathlib.Path(samples).iterdir():
        shutil.copy(sample, folder)
    return {"PATH": f"{programs}:{os.environ['PATH']}", "TERM": "xterm", "LC_ALL": "C",
            "HOME": str(folder)}


def run_file(path, tool, samples, write):
    """How many cases there are and how many of them differ."""
    text = path.read_text(encoding="utf-8")
    parts, stored, differ = read_cases(text), [], 0
    with tempfile.TemporaryDirectory() as name:
        folder = pathlib.Path(name)
        environment = prepare(folder, tool, samples)
        for part in parts:
            if not isinstance(part, Case):
                stored.append(part)
                continue
            printed = run(part, folder, environment)
            stored += part.lines(printed)
            if printed != part.wanted:
                differ += 1
                if not write:
                    sys.stdout.writelines(line + "\n" for line in difflib.unified_diff(
                        part.wanted, printed, f"{path.name}: {part.command}", "printed",
                        lineterm="", n=2))
    if write:
        path.write_text("\n".join(stored), encoding="utf-8")
    return sum(isinstance(part, Case) for part in parts), differ


def can_fail(tool, samples):
    """A wrong line, a missing one, one too many and a wrong status must each be found."""
    right = "$ echo a; echo b >&2; exit 3\n| a\n! b\n? 3\n"
    for old, new, wanted in (("", "", 0), ("| a", "| c", 1), ("! b\n", "", 1), ("? 3", "? 4", 1),
                             ("| a", "| a\n| a", 1), ("\n? 3", "", 1)):
        with tempfile.TemporaryDirectory() as name:
            path = pathlib.Path(name) / "cases"
            path.write_text(right.replace(old, new, 1), encoding="utf-8")
            stdout, sys.stdout = sys.stdout, open(os.devnull, "w", encoding="utf-8")
            with sys.stdout:
                found = run_file(path, tool, samples, False)
            sys.stdout = stdout
            if found != (1, wanted):
                return False
    return True


def main():
    arguments = sys.argv[1:]
    write = arguments[:1] == ["--write"]
    arguments = arguments[1 if write else 0:]
    if len(arguments) < 3:
        print(__doc__)
        return 2
    tool, samples, *paths = arguments
    if not can_fail(tool, samples):
        print("tool-test: a wrong case is not found")
        return 1
    counts = [run_file(pathlib.Path(p), tool, samples, write) for p in paths]
    cases, differ = sum(c for c, _ in counts), sum(d for _, d in counts)
    print(f"tool-test: {cases} commands, {differ} {'rewritten' if write else 'differ'}")
    return 1 if (differ and not write) or cases == 0 else 0


if __name__ == "__main__":
    sys.exit(main())
