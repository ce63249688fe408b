"""The cases of the files of the folder vectors, in the format of docs/VECTORS.md."""

import collections
import re

ESCAPE = re.compile(rb"\\(x[0-9A-F]{2}|[ntse]?)")
PARTS = {b"n": b"\n", b"t": b"\t", b"s": b" ", b"e": b""}
STATUSES = {b"0": 0, b"1": 1, b"2": 2}

# A case: the words after the program's name, standard input, the status, and the text on standard output.
Case = collections.namedtuple("Case", "words given status text")


def unescaped(escape):
    """The octets for an escape."""
    if not escape[1]:
        raise ValueError("a backslash begins no escape")
    return bytes.fromhex(escape[1][1:].decode()) if escape[1].startswith(b"x") else PARTS[escape[1]]


def octets(field):
    """The octets that a field stands for."""
    return b"" if field == b"-" else ESCAPE.sub(unescaped, field)


def field_of(text):
    """The field that stands for octets, with spaces as they are."""
    signs = {it: chr(it) for it in range(0x20, 0x7F)} | {0x09: r"\t", 0x0A: r"\n", 0x5C: r"\x5C"}
    return "".join(signs.get(it, rf"\x{it:02X}") for it in text) or "-"


def case_of(line):
    """The case of a line. If the line isn't of the format, this raises a ValueError."""
    line.decode("ascii")
    words, given, status, text = line.split(b"\t")
    if status not in STATUSES:
        raise ValueError("the status is another one")
    words = [] if words == b"-" else [octets(it) for it in words.split(b" ")]
    for word in words:
        word.decode("utf-8")
    return Case(words, octets(given), STATUSES[status], octets(text))


def lines_of(path):
    """The lines of a file that aren't remarks, each with its number."""
    for number, line in enumerate(path.read_bytes().split(b"\n"), 1):
        if line and not line.startswith(b"#"):
            yield number, line
