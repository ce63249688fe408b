#!/usr/bin/env python3
"""Judges many traces in pieces of a file, each piece by itself, and makes one report of all of them.

    python3 bulk.py FILE                      the report, by this process alone
    python3 bulk.py pieces FILE COUNT         the pieces of the file, about so many, each as two numbers
    python3 bulk.py piece FILE BEGIN END DIR  judges a piece, and writes what it found into a file of DIR
    python3 bulk.py merge FILE DIR            the report of the pieces in DIR, which have to be the whole file

A line of FILE is a trace. It has three fields, with a tab between two: a name, the answer to reset of the card, and the
lines of the trace with `;` between two. A piece has the lines that begin at an octet from BEGIN up to END. What is
found in a piece depends on nothing else, so a piece may be judged again, and then it is counted once.
"""
import collections
import json
import os
import pathlib
import sys

import scard

# the names of the first traces of each verdict but ok
FIRST = 5


def judged(line):
    """The name of a trace, and what the program says of it."""
    name, atr, trace = line.decode().split("\t")
    said = scard.answer(["judge", atr, "--json"], trace.replace(";", "\n"))
    return name, json.loads(said.text)


def lines_of(path, begin, end):
    """The lines that begin in these octets of a file."""
    with open(path, "rb") as file:
        file.seek(max(begin - 1, 0))
        if begin > 0:
            file.readline()  # the rest of a line that begins before; only its end, if a line begins here
        while file.tell() < end and (line := file.readline()):
            yield line.rstrip(b"\n")


def piece(path, begin, end):
    """What is found in a piece: how often each verdict and each broken rule came, and the first names of a verdict."""
    verdicts, rules, first = collections.Counter(), collections.Counter(), {}
    for name, said in map(judged, lines_of(path, begin, end)):
        verdict = said["verdict"]
        verdicts[verdict] += 1
        rules.update(it["rule"] for it in said.get("told", ()) if it["kind"] == "deviation")
        if verdict != "ok":
            first.setdefault(verdict, []).append(name)
    first = {verdict: names[:FIRST] for verdict, names in first.items()}
    return {"begin": begin, "end": end, "verdicts": verdicts, "rules": rules, "first": first}


def pieces(path, count):
    """The first octets and the ends of about so many pieces of a file."""
    size = os.path.getsize(path)
    step = max(-(-size // count), 1)
    return [(begin, min(begin + step, size)) for begin in range(0, size, step)]


def whole(path, found):
    """The pieces of a file in order. There is a hole, or octets come twice, unless each piece begins where the one
    before ends."""
    found = sorted(found, key=lambda it: it["begin"])
    ends = [0, *(it["end"] for it in found)]
    if [it["begin"] for it in found] != ends[:-1] or ends[-1] != os.path.getsize(path):
        raise SystemExit("the pieces aren't the whole file")
    return found


def report(path, found):
    """The report of all pieces, as text."""
    verdicts, rules, first = collections.Counter(), collections.Counter(), {}
    for one in whole(path, found):
        verdicts.update(one["verdicts"])
        rules.update(one["rules"])
        for verdict, names in one["first"].items():
            first[verdict] = (first.get(verdict, []) + names)[:FIRST]
    lines = [f"{sum(verdicts.values())} traces"]
    for verdict, count in sorted(verdicts.items()):
        lines.append(f"  {verdict}: {count}" + (f", first {' '.join(first[verdict])}" if verdict in first else ""))
    return "\n".join([*lines, *(f"rule {rule}: {count}" for rule, count in sorted(rules.items()))])


def keeps(path, begin, end, folder):
    """Judges a piece, and writes what it found in one step: a process that ends before that leaves nothing."""
    to = pathlib.Path(folder) / f"{begin}.json"
    new = to.with_suffix(f".{os.getpid()}")
    new.write_text(json.dumps(piece(path, begin, end)))
    os.replace(new, to)


def main(words):
    if len(words) == 1:
        print(report(words[0], [piece(words[0], *it) for it in pieces(words[0], 1)]))
    elif words[:1] == ["pieces"] and len(words) == 3:
        for begin, end in pieces(words[1], int(words[2])):
            print(begin, end)
    elif words[:1] == ["piece"] and len(words) == 5:
        keeps(words[1], int(words[2]), int(words[3]), words[4])
    elif words[:1] == ["merge"] and len(words) == 3:
        print(report(words[1], [json.loads(it.read_text()) for it in pathlib.Path(words[2]).glob("*.json")]))
    else:
        sys.exit(__doc__)


if __name__ == "__main__":
    main(sys.argv[1:])
