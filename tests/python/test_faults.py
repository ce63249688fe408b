"""Sessions over a line with faults, in virtual time: both ends by their steps, in one loop. Each answer has to be the
card's to that command, and the card has to get each command at most once and in order. A reader by LEN, which takes the
first 4 + LEN octets for a block, has to be caught by the same loop.

The variable SCARD_EXCHANGES says how many exchanges there are with each kind of fault.
"""
import os
import random
import unittest
from collections import deque

import scard

EXCHANGES = int(os.environ.get("SCARD_EXCHANGES", "200"))
T1 = scard.T1(ifsc=32, bwi=0, cwi=5)
SETUP = scard.Setup(T1, refuses_empty=True)
OCTET = 1250  # 12 etu at 9,600 bits a second, in microseconds
CWT, BWT = 4480, 103125
RATE = 0.08


def one_changed(draw, octets):
    """Another value at one place. LEN is the most treacherous one."""
    at = 2 if draw.random() < 0.4 else draw.randrange(len(octets))
    octets[at] = (octets[at][0], octets[at][1] ^ draw.randrange(1, 256))


def one_lost(draw, octets):
    """An octet is missing."""
    del octets[draw.randrange(len(octets))]


def one_added(draw, octets):
    """An octet more."""
    octets.insert(draw.randrange(len(octets) + 1), (0, draw.randrange(256)))


def one_doubled(draw, octets):
    """An octet comes twice."""
    at = draw.randrange(len(octets))
    octets.insert(at, octets[at])


def paused(draw, octets):
    """A pause before an octet, of up to five CWT."""
    at = draw.randrange(len(octets))
    octets[at] = (draw.randrange(5 * CWT), octets[at][1])


def burst_lost(draw, octets):
    """No octet arrives."""
    octets.clear()


def late(draw, octets):
    """The whole burst comes later, by up to half of BWT."""
    octets[0] = (draw.randrange(BWT // 2), octets[0][1])


def many_changed(draw, octets):
    """All octets are noise, except by chance."""
    octets[:] = [(0, draw.randrange(256)) for _ in octets]


FAULTS = (one_changed, one_lost, one_added, one_doubled, paused, burst_lost, late, many_changed)


class ByLen:
    """A terminal whose reader believes LEN, with the steps of a session."""

    def __init__(self):
        self.terminal, self.came, self.wait = scard.Terminal(T1), b"", 0

    def made(self, turn):
        """The step of a turn."""
        self.wait, self.came = turn.wait * BWT, b""
        octets = self.terminal.answer if turn.kind is scard.TurnKind.DONE else turn.octets
        return scard.Step(turn.kind, 0, octets)

    def exchange(self, command, now):
        return self.made(self.terminal.transmit(command))

    def step(self, event, octets, now):
        self.came += octets
        if len(self.came) > 2 and len(self.came) >= 4 + self.came[2]:
            return self.made(self.terminal.received(self.came[:4 + self.came[2]]))
        if event is scard.Event.SILENT:
            return self.made(self.terminal.received(self.came) if self.came else self.terminal.quiet())
        return scard.Step(scard.TurnKind.SESSION_WAIT, CWT if self.came else self.wait, b"")


class Side:
    """One end: its step, the octets on their way to it, and when its last octet was sent or received."""

    def __init__(self, steps):
        self.steps, self.step, self.came, self.last, self.due, self.other = steps, None, deque(), 0, 0, None

    def takes(self, step, line):
        """Begins what a step says."""
        self.step = step
        if step.kind is scard.TurnKind.SEND:
            self.due = line.now + OCTET * len(step.octets)
            line.carries(self.other, step.octets)

    def next_time(self, now):
        """When something happens to this end."""
        if self.step is None or self.step.rests:
            return float("inf")
        if self.step.kind is scard.TurnKind.SEND:
            return self.due
        silent = self.last + self.step.wait if self.step.wait != scard.FOREVER else float("inf")
        return max(now, min(silent, self.came[0][0] if self.came else float("inf")))

    def happens(self, line):
        """Reports what happened."""
        if self.step.kind is scard.TurnKind.SEND:
            self.last = line.now
            return self.steps.step(scard.Event.SENT, b"", line.now)
        octets = self.octets(line)
        event = scard.Event.CAME if octets else scard.Event.SILENT
        return self.steps.step(event, octets, line.now)

    def octets(self, line):
        """Some of the octets that came by now: a driver may split them in any way."""
        count = sum(1 for arrival, _ in self.came if arrival <= line.now)
        count = line.draw.randrange(1, count + 1) if count else 0
        taken = [self.came.popleft() for _ in range(count)]
        self.last = taken[-1][0] if taken else self.last
        return bytes(octet for _, octet in taken)


class Line:
    """A line between a terminal and a card. One block of some has the fault."""

    def __init__(self, draw, fault, rate, terminal):
        self.draw, self.fault, self.rate, self.now = draw, fault, rate, 0
        self.sides = [Side(terminal), Side(scard.CardSessionSteps(SETUP))]
        self.sides[0].other, self.sides[1].other = self.sides[1], self.sides[0]
        self.got, self.faults = [], 0
        self.sides[1].takes(self.sides[1].steps.serve(0), self)

    def carries(self, side, octets):
        """Puts what arrives of a block on its way to an end."""
        pairs = [(0, octet) for octet in octets]
        if self.draw.random() < self.rate:
            self.fault(self.draw, pairs)
            self.faults += 1
        at = max(self.now, side.came[-1][0] if side.came else 0)
        for pause, octet in pairs:
            at += OCTET + pause
            side.came.append((at, octet))

    def exchange(self, command):
        """Exchanges a command, and returns the last step."""
        terminal, card = self.sides
        terminal.takes(terminal.steps.exchange(command, self.now), self)
        while not terminal.step.rests:
            side = min(self.sides, key=lambda it: it.next_time(self.now))
            self.now = max(self.now, side.next_time(self.now) + self.draw.randrange(3 * OCTET))
            side.takes(side.happens(self), self)
            if card.step.kind is scard.TurnKind.DONE:
                self.got.append(card.step.octets)
                card.takes(card.steps.reply(answer_to(card.step.octets), self.now), self)
        return terminal.step


def answer_to(command):
    """The reply of a host: each front of it passes for a block if LEN becomes smaller, for one of the two numbers of
    blocks. So a reader by LEN takes it."""
    check, octets = command[4] & 0x40, []
    for place in range(command[5] % 28):
        octets.append(check ^ place)
        check ^= octets[-1]
    return bytes(octets) + command[:6] + b"\x90\x00"


def tried(fault, exchanges, rate=RATE, terminal=lambda: scard.SessionSteps(SETUP), until_wrong=False):
    """Exchanges over lines with a fault. Returns how many had a right answer, a wrong one or none, on how many lines
    the card got a command that nobody sent, or twice, and how many faults there were."""
    draw = random.Random(fault.__name__)
    right = wrong = none = foreign = faults = 0
    line = None
    while right + wrong + none < exchanges and not (until_wrong and wrong):
        if line is None:
            line, sent = Line(draw, fault, rate, terminal()), []
        command = bytes([0, 0xA4, len(sent) >> 8, len(sent) & 255, draw.randrange(256), draw.randrange(256)])
        command += bytes(draw.randrange(256) for _ in range(draw.choice((0, 3, 60))))
        sent.append(command)
        step = line.exchange(command)
        answered = step.kind is scard.TurnKind.DONE
        right += answered and step.octets == answer_to(command)
        wrong += answered and step.octets != answer_to(command)
        none += not answered
        if step.kind in (scard.TurnKind.DEAD, scard.TurnKind.SESSION_FAILED) or len(sent) > 200:
            foreign += not in_order(line.got, sent)
            faults += line.faults
            line = None
    if line is not None:
        foreign += not in_order(line.got, sent)
        faults += line.faults
    return right, wrong, none, foreign, faults


def in_order(got, sent):
    """Whether what came is a part of what was sent, in its order."""
    left = iter(sent)
    return all(command in left for command in got)


class Faults(unittest.TestCase):
    def test_a_good_line(self):
        self.assertEqual(tried(one_changed, EXCHANGES, rate=0), (EXCHANGES, 0, 0, 0, 0))

    def test_every_fault(self):
        for fault in FAULTS:
            with self.subTest(fault.__name__):
                right, wrong, none, foreign, faults = tried(fault, EXCHANGES)
                if "SCARD_EXCHANGES" in os.environ:
                    print(f"{fault.__name__}: {right} right, {wrong} wrong, {none} none, {faults} faults", flush=True)
                self.assertGreater(right, EXCHANGES * 3 // 4)
                self.assertGreater(faults, EXCHANGES // 20)
                self.assertEqual((wrong, foreign), (0, 0))

    def test_a_reader_by_len_is_caught(self):
        right, wrong, *_ = tried(one_changed, 5000, terminal=ByLen, until_wrong=True)
        self.assertEqual(wrong, 1, right)


if __name__ == "__main__":
    unittest.main(verbosity=0)
