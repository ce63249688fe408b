"""Judges a trace of a line: which end broke which rule of T=1.

    python3 judge_trace.py 3B808131204555 <line.trace

The word is the answer to reset of the card. Each line of standard input is `t` or `c`, for the terminal or the card,
and the octets that it sent, in hexadecimal. The status is 1 if a block deviates.
"""
import sys

import scard

ENDS = {"t": scard.End.TERMINAL, "c": scard.End.CARD}


def said(judgment, end):
    """The line about a block that deviates."""
    due = judgment.due
    return (f"block {judgment.number} {end.name.lower()}: {judgment.rule.text}, due {due.owed.name} {due.next}"
            f"  ({judgment.rule.clause})")


def main(words):
    if len(words) != 1:
        sys.exit(__doc__)
    judge = scard.Judge(scard.Atr.decode(bytes.fromhex(words[0])).t1().ifsc)
    blocks = deviations = 0
    for line in sys.stdin:
        end, octets = line.split()
        judgment = judge.block(ENDS[end], bytes.fromhex(octets))
        blocks += 1
        if judgment.verdict is scard.Judged.DEVIATION:
            deviations += 1
            print(said(judgment, ENDS[end]))
    print(f"{blocks} blocks, {deviations} deviation{'' if deviations == 1 else 's'}")
    return 1 if deviations else 0


if __name__ == "__main__":
    sys.exit(main(sys.argv[1:]))
