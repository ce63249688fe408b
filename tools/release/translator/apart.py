"""Which functions the sources of the crates keep apart from their callers, by the attribute inline(never)."""

import pathlib
import re

MARKED = re.compile(r"#\[inline\(never\)\]\n(?:\s*(?:#\[.*\]|//.*)\n)*\s*(?:pub(?:\(\w+\))? )?fn (\w+)")


def marked(crates):
    """The beginning and the end of the name in C of each function with that attribute, in a folder of crates."""
    for file in sorted(pathlib.Path(crates).glob("*/src/**/*.rt")):
        crate = file.relative_to(crates).parts[0]
        for name in MARKED.findall(file.read_text()):
            yield f"{crate}_{file.stem}_", f"_{name}"


def is_apart(name, found):
    """Whether the function with this name in C is one of them."""
    return any(name.startswith(first) and name.endswith(last) for first, last in found)
