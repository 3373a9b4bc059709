"""The numbers that C headers name, so that scripts take them from the same list as the C code.

    c_names("host/format.h").SLOT_SIZE

A header is named from the top folder; its enums give each name a plain number.
"""
import pathlib
import re
import types

TOP = pathlib.Path(__file__).resolve().parents[1]
COMMENT = re.compile(r"/\*.*?\*/", re.DOTALL)
ENUM = re.compile(r"\benum\s*\{([^}]*)\}")
NAMED = re.compile(r"\s*(\w+)\s*=\s*(0x[0-9A-Fa-f]+|\d+)\s*")


def c_names(header):
    """The names of a header's enums with their numbers; ValueError if one has no plain number."""
    text = COMMENT.sub("", (TOP / header).read_text(encoding="ascii"))
    names = {}
    for part in ",".join(ENUM.findall(text)).split(","):
        named = NAMED.fullmatch(part)
        if not named and part.strip():
            raise ValueError(f"{header}: no plain number: {part.strip()}")
        if named:
            names[named[1]] = int(named[2], 0)
    return types.SimpleNamespace(**names)
