#!/usr/bin/env python3
"""Compares the ratios of runs of tools/peers/run with those that a page has.

usage: tools/peers/against.py PAGE RUN..

PAGE is docs/PERFORMANCE.md or one like it, whose rows have the work, the other stack, both times and the ratio. Each
RUN is the output of the program times. The script names a row if its ratio is more than 8 percent over that of the page
in every run. Half of the last digit is added to the page's ratio, since it is rounded. A row that only one side has is
named too. The status is 1 if a row is named.
"""

import pathlib
import re
import sys

sys.dont_write_bytecode = True
sys.path.insert(0, str(pathlib.Path(__file__).resolve().parents[1] / "common"))
from words import no_option, usage

WORSE = 1.08
# Half of the last digit of a ratio on the page and in a run.
ROUNDED = 0.005
TIME = r"[\d.,]+ (?:ns|us|ms)"
ON_PAGE = re.compile(rf"\| (?P<work>[^|]+?) \| (?P<peer>[^|]+?) \| {TIME} \| {TIME} \| (?P<ratio>\d+\.\d+) \|")
IN_RUN = re.compile(r"(?P<work>\S.*?\S) {2,}(?P<peer>\S.*?\S) +(?P<theirs>[\d.]+) +(?P<ours>[\d.]+) +(?P<ratio>[\d.]+)")


def key_of(row):
    """A row's name: its work and the other stack, with numbers as the program prints them."""
    return re.sub(r"(?<=\d),(?=\d{3})", "", row["work"]), row["peer"]


def rows_of(form, text):
    """The ratios of a text's rows, by their names."""
    found = (form.fullmatch(line.strip()) for line in text.splitlines())
    return {key_of(row): float(row["ratio"]) for row in found if row}


def named(page, runs):
    """A line for each row that is worse in all runs, or that isn't on both sides."""
    wanted, seen = rows_of(ON_PAGE, page), [rows_of(IN_RUN, it) for it in runs]
    for key in [*wanted, *(it for it in dict.fromkeys(key for run in seen for key in run) if it not in wanted)]:
        name, ratios = f"{key[0]}, {key[1]}", [run.get(key) for run in seen]
        if key not in wanted:
            yield f"{name}: the page has no such row"
        elif None in ratios:
            yield f"{name}: a run has no such row"
        elif min(ratios) - ROUNDED > WORSE * (wanted[key] + ROUNDED):
            yield f"{name}: {', '.join(f'{it:.2f}' for it in ratios)}, and {wanted[key]:.2f} on the page"


def main(words):
    no_option(__doc__, words)
    if len(words) < 2:
        usage(__doc__)
    page, *runs = (pathlib.Path(it).read_text(encoding="utf-8") for it in words)
    wrong = [*named(page, runs)]
    print("\n".join([*wrong, f"against: {len(rows_of(ON_PAGE, page))} rows of the page, {len(wrong)} named"]))
    return 1 if wrong else 0


if __name__ == "__main__":
    sys.exit(main(sys.argv[1:]))
