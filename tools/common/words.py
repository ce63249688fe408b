"""Refuses wrong words of a script, and unknown options."""

import sys


def usage(doc):
    """Ends a script with status 2, and prints the usage of its documentation."""
    lines = doc.splitlines()
    first = next(at for at, line in enumerate(lines) if line.startswith("usage: "))
    last = next((at for at in range(first, len(lines)) if not lines[at]), len(lines))
    print("\n".join(lines[first:last]), file=sys.stderr)
    sys.exit(2)


def no_option(doc, words, *known):
    """Ends a script with its usage if a word begins with a dash and isn't a known option."""
    if any(it.startswith("-") and it not in known for it in words):
        usage(doc)
