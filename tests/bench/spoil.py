#!/usr/bin/env python3
"""Spoils the samples of bench/samples and imports them: each input is read, or is refused in one line.

usage: tests/bench/spoil.py [COUNT [SEED]]

COUNT is the number of inputs, 10,000 by default. Octets are changed, put in and taken out, lines are doubled, left out
and swapped, and files are cut. The status is 1 if an input ends in another way than by `Wrong`.
"""
import random
import sys
import traceback

sys.dont_write_bytecode = True
from samples import FORMATS, Wrong, imported, octets_of


def changed(rng, octets):
    """Octets with one of these faults."""
    at, way = rng.randrange(len(octets)), rng.randrange(6)
    if way == 0:
        return octets[:at] + bytes([rng.randrange(256)]) + octets[at + 1:]
    if way == 1:
        return octets[:at] + octets[at + rng.choice((1, 2, 3, 16)):]
    if way == 2:
        return octets[:at] + rng.choice((b"\n", b",", b" ", b"\x00", b"FF", b"-9", b'"', b"1e999")) + octets[at:]
    if way == 3:
        return octets[:at]
    lines = octets.splitlines(True)
    one, two = rng.randrange(len(lines)), rng.randrange(len(lines))
    if way == 4:
        lines[one], lines[two] = lines[two], lines[one]
    else:
        lines[one:one + rng.randrange(3)] = [lines[two]]
    return b"".join(lines)


def spoiled(rng, octets):
    """Octets with one to four faults."""
    for _ in range(rng.choice((1, 1, 1, 2, 4))):
        octets = changed(rng, octets) if octets else b"\n"
    return octets


def outcome(name, octets):
    """How an import ends: read, refused, or in another way, with its trace of calls."""
    try:
        imported(name, octets)
    except Wrong as wrong:
        return "refused" if "\n" not in str(wrong) and str(wrong) else f"not one line: {wrong}"
    except Exception:
        return traceback.format_exc()
    return "read"


def tries(count, seed):
    """How the imports of so many spoiled samples end: how many were read and refused, and the others."""
    rng, counts, others = random.Random(seed), {"read": 0, "refused": 0}, []
    texts = {name: octets_of(name) for name in FORMATS}
    texts["ccid.log"] = b"".join(it for it in texts["ccid.log"].splitlines(True) if b" 000000 " in it)
    for _ in range(count):
        name = rng.choice(list(texts))
        octets = spoiled(rng, texts[name])
        said = outcome(name, octets)
        if said in counts:
            counts[said] += 1
        else:
            others.append((name, octets, said))
    return counts, others


def main(words):
    if len(words) > 2 or words[:1] in (["-h"], ["--help"]):
        sys.exit(__doc__)
    counts, others = tries(int(words[0]) if words else 10_000, words[1] if len(words) > 1 else "spoil")
    for name, octets, said in others[:5]:
        print(name, octets[:200], said, sep="\n")
    print(f"spoil: {counts['read']} read, {counts['refused']} refused, {len(others)} ended in another way")
    return 1 if others else 0


if __name__ == "__main__":
    sys.exit(main(sys.argv[1:]))
