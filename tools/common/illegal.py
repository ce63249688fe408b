"""Sessions of T=1 whose last step the standard doesn't permit, for tools/gate/try-legal. kinds.py has the kinds."""

import dataclasses

from kinds import MESSAGE, MOST_REPEATS, Turn
from legal import CARD, RESYNCH, TERMINAL, GivesUp, swapped
from tapped import QUIET, Doubled, Line

# how many blocks a session has at most before the wrong step, and how many sessions are tried
LONGEST, TRIES = 120, 20


class Ended(Exception):
    """The wrong step has come."""


class Changed(Line):
    """A line whose last step is one of a kind that isn't permitted, after some blocks. `came` says whether it came."""

    def __init__(self, rng, kind, needs):
        self.after, self.kind, self.came, self.storm = 0 if kind.begins else rng.randrange(30), kind, False, False
        super().__init__(rng, needs)

    def two_ends(self):
        """Ends of which the terminal uses all its repeats, where they all fail."""
        ends = super().two_ends()
        if self.kind.storm:
            ends[TERMINAL].most = MOST_REPEATS
        return ends

    def carries(self, side, block):
        """Carries a block, or the wrong one at last."""
        self.after -= 1
        turn = Turn(self, side, block)
        if self.after < 0 and (not self.kind.side or side == self.kind.side):
            self.ends_by(turn, turn.end.due)
        self.storms(side, block)
        return super().carries(side, block)

    def ends_by(self, turn, due):
        """Ends the session by the wrong step, if it can come now."""
        if due in self.kind.dues and (rows := self.kind.rows(turn)):
            if self.kind.is_timed and self.rows[-1].word == QUIET and self.rng.random() < 0.5:
                self.rows.pop()
            self.rows += rows
            self.came = True
            raise Ended

    def storms(self, side, block):
        """From this block on, one end's blocks are damaged."""
        due, end = self.ends[side].due, self.ends[side]
        if self.after >= 0 or side == CARD or self.storm:
            return
        begins = {"blocks of the terminal": due in MESSAGE, "blocks of the card": due in MESSAGE,
                  "answers to a request": due == "request" and block[0] != RESYNCH,
                  "answers to RESYNCH": due in ("request", "RESYNCH") and block[0] == RESYNCH}
        self.storm = end.fails == 0 and begins.get(self.kind.storm, False)

    def fate(self, octets):
        """What reaches the other end: in a storm one end's blocks are damaged, and the other's come whole."""
        if not self.storm:
            return super().fate(octets)
        harmed_side = TERMINAL if self.kind.storm == "blocks of the terminal" else CARD
        return octets[:-1] + bytes([octets[-1] ^ 1]) if self.sending == harmed_side else octets

    def runs(self, count):
        """Carries blocks until the wrong step came, with a reset where a terminal gives up."""
        step = None
        for _ in range(count):
            try:
                step = self.turned(step)
                self.sending, block = step or (TERMINAL, self.ends[TERMINAL].acts("message"))
                step = self.carries(self.sending, block)
            except Ended:
                break
            except GivesUp:
                if self.gives_up():
                    break
                step = None
        return self.rows

    def gives_up(self):
        """Resets the card, unless the terminal goes on wrongly."""
        try:
            self.ends_by(Turn(self, TERMINAL, (RESYNCH, b"")), "gives up")
        except Ended:
            return True
        self.storm = False
        self.begins_anew("reset")
        return False


class ChangedOfTwo(Changed, Doubled):
    """The same with two connections."""

    def is_first(self):
        """Whether the first connection goes on."""
        return not self.turns

    def has_other(self):
        """Whether a block of the other connection came since the reset."""
        nads = self.connections[1][0], swapped(self.connections[1][0])
        return any(row.is_block() and row.octets[0] == nads[row.word == CARD] for row in self.rows[self.begun():])


def changed(rng, kind, is_told):
    """A line on which the wrong step of a kind came, or None. If the trace doesn't say how blocks arrived, all do."""
    needs = kind.needs if is_told else dataclasses.replace(kind.needs, damage=0.0, loss=0.0)
    for _ in range(TRIES):
        line = (ChangedOfTwo if kind.line == "two" else Changed)(rng, kind, needs)
        line.runs(LONGEST)
        if line.came:
            return line
    return None
