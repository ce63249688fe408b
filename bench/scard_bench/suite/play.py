"""Plays a scenario with a device: the tester is the other end."""
from __future__ import annotations

import re
from typing import Any, Dict, List, Optional

from ..errors import Wrong
from ..program import Program
from .device import Broken, Reply, Talks
from .engine import Engine, Sent, Turn, octets_in
from .line import TURN, Line
from .scenario import Declaration, Scenario

# more blocks than any scenario needs
MOST = 600


class Missed(Exception):
    """The device didn't do what the scenario expects."""


class Play:
    """A scenario that runs. `problems` are the outcomes that are wrong."""

    def __init__(self, program: Program, device: Talks, scenario: Scenario, declaration: Declaration) -> None:
        self.program, self.device, self.scenario, self.declaration = program, device, scenario, declaration
        self.line = Line(scenario.faults, device.timing)
        self.problems: List[str] = []
        self.atr = b""

    def runs(self) -> None:
        """Runs the steps, up to the first that the device doesn't follow."""
        try:
            self.begins()
            self.line.begins()
            for step in self.scenario.steps:
                self.steps(step)
        except Missed as missed:
            self.problems.append(str(missed))

    def begins(self) -> None:
        """Resets the card."""
        raise NotImplementedError

    def steps(self, step: Dict[str, Any]) -> None:
        """Does a step."""
        raise NotImplementedError

    def bounds(self) -> None:
        """Ends the scenario if there were too many blocks."""
        if len(self.line.blocks) >= MOST:
            raise Missed(f"more than {MOST} blocks were sent")

    def carries(self, side: str, octets: bytes, waited: int = TURN) -> Sent:
        """Carries a block."""
        self.bounds()
        return self.line.carries(side, octets, waited)

    def says(self, side: str, reply: Reply) -> Sent:
        """Carries a block of the device. If its times aren't its own, it takes the tester's time to turn round too."""
        self.bounds()
        self.problems += [reply.problem] if reply.problem else []
        if self.declaration.has_own_times:
            return self.line.says(side, reply.octets, reply.waited)
        return self.line.carries(side, reply.octets, reply.waited + TURN)

    def expects(self, pattern: str, octets: Optional[bytes]) -> None:
        """Compares what the device sent with what the scenario expects."""
        text = "-" if octets is None else octets.hex().upper()
        if not re.fullmatch(pattern, text):
            raise Missed(f"block {len(self.line.blocks)}: it sent {text[:80]}, expected {pattern}")


class CardPlay(Play):
    """The device is a card, and the tester is a proved terminal."""

    def begins(self) -> None:
        reply = self.device.asks("reset")
        if not reply.is_block:
            raise Broken("it answered `reset` by no answer to reset")
        self.atr = reply.octets
        if self.program.whole("atr", [self.atr]) != [len(self.atr)]:
            raise Missed(f"the answer to reset {octets_in(self.atr)} isn't one")
        self.engine = Engine(self.program, "terminal", self.atr)

    def steps(self, step: Dict[str, Any]) -> None:
        if "exchange" in step:
            self.exchanges(step)
        elif "ifsd" in step:
            self.engine.adds(f"ifsd {step['ifsd']}")
            turn = self.talks()
            if turn.word != "ifs-set":
                raise Missed(f"the request for fields of {step['ifsd']} octets ended as {turn.word}")
        elif "raw" in step:
            self.sends(step)
        elif "fresh" in step:
            self.engine = Engine(self.program, "terminal", self.atr)
        elif "reset" in step:
            self.line.reset()
            self.begins()
        else:
            raise Wrong(f"scenario {self.scenario.identity}: a step that a card doesn't have")

    def exchanges(self, step: Dict[str, Any]) -> None:
        """Exchanges a command, whose answer has to come through unchanged."""
        command, answer = self.declaration.commands[step["exchange"]]
        answer = bytes.fromhex(step["answer"]) if "answer" in step else answer
        self.engine.adds(f"command {octets_in(command)}")
        turn = self.talks()
        if turn.word == "answer":
            if turn.octets != answer:
                raise Missed(f"the answer to {step['exchange']} was {octets_in(turn.octets)[:80]}, "
                             f"expected {octets_in(answer)[:80]}")
        elif not step.get("may fail"):
            raise Missed(f"the exchange of {step['exchange']} ended as {turn.word}")

    def talks(self) -> Turn:
        """Sends the blocks of the terminal until it has an outcome."""
        while True:
            turn = self.engine.turn()
            if turn.word == "dead":
                raise Missed("the card no longer answers, not even RESYNCH")
            if turn.word != "t":
                self.engine.adds(f"{turn.word} {octets_in(turn.octets)}" if turn.word == "answer" else turn.word)
                return turn
            sent = self.carries("t", turn.octets)
            self.engine.adds(sent.recorded(turn.octets))
            self.hears(sent)

    def hears(self, sent: Sent) -> None:
        """Hands a block to the card, and its reply to the terminal."""
        reply = self.asked(sent)
        if reply is None or not reply.is_block:
            self.is_quiet()
            return
        came = self.says("c", reply)
        self.engine.adds(came.recorded())
        if came.came is None:
            self.is_quiet()

    def is_quiet(self) -> None:
        """The waiting time of the terminal ended."""
        self.line.quiet()
        self.engine.adds("quiet")

    def asked(self, sent: Sent) -> Optional[Reply]:
        """What the card says to a block, None if it didn't arrive."""
        if sent.came is None:
            return None
        reply = self.device.asks(octets_in(sent.came))
        if reply.word not in ("block", "nothing"):
            raise Broken(f"a card doesn't say `{reply.word}`")
        return reply

    def sends(self, step: Dict[str, Any]) -> None:
        """Sends octets as they are, in place of what the terminal would send."""
        reply = self.asked(self.carries("t", bytes.fromhex(step["raw"])))
        octets = None
        if reply is None or not reply.is_block:
            self.line.quiet()
        else:
            octets = self.says("c", reply).octets
        if "reply" in step:
            self.expects(step["reply"], octets)


class TerminalPlay(Play):
    """The device is a terminal, and the tester is a proved card."""

    def begins(self) -> None:
        self.atr = bytes.fromhex(self.scenario.atr)
        self.engine = Engine(self.program, "card", self.atr)
        self.plan: Dict[str, Any] = {}
        self.served: List[bytes] = []
        reply = self.talks(self.device.asks(f"reset {octets_in(self.atr)}"))
        if reply.word != "nothing":
            raise Broken(f"it said `{reply.word}` before it got a command")
        first = octets_in(self.line.blocks[0].octets) if self.line.blocks else "-"
        if self.scenario.first and not re.fullmatch(self.scenario.first, first):
            raise Missed(f"its first block was {first[:80]}, expected {self.scenario.first}")

    def steps(self, step: Dict[str, Any]) -> None:
        if "send" not in step:
            raise Wrong(f"scenario {self.scenario.identity}: a step that a terminal doesn't have")
        name = step["send"]
        command, answer = self.declaration.commands[name]
        self.plan = {**step, "reply": bytes.fromhex(step["answer"]) if "answer" in step else answer}
        self.served, before = [], len(self.line.sent_by("t"))
        reply = self.talks(self.device.asks(f"send {octets_in(command)}"))
        self.ended(name, command, reply)
        self.compares(step.get("blocks", []), self.line.sent_by("t")[before:])

    def compares(self, patterns: List[str], sent: List[bytes]) -> None:
        """Compares the blocks that the terminal sent with what the scenario expects."""
        for pattern, octets in zip(patterns, sent):
            self.expects(pattern, octets)
        if patterns and len(patterns) != len(sent):
            raise Missed(f"it sent {len(sent)} blocks, expected {len(patterns)}")

    def ended(self, name: str, command: bytes, reply: Reply) -> None:
        """Compares the end of an exchange with what has to come of it."""
        if reply.word == "answer" and reply.octets != self.plan["reply"]:
            raise Missed(f"the answer to {name} was {octets_in(reply.octets)[:80]}, "
                         f"expected {octets_in(self.plan['reply'])[:80]}")
        if reply.word == "failed" and not self.plan.get("may fail"):
            raise Missed(f"the exchange of {name} failed")
        if reply.word == "nothing":
            raise Missed(f"the terminal sent nothing, although the exchange of {name} isn't over")
        if reply.word == "answer" and "card" not in self.plan and self.served != [command]:
            raise Missed(f"the card got {' and then '.join(octets_in(it)[:80] for it in self.served) or 'no command'}, "
                         f"sent was {octets_in(command)[:80]}")

    def talks(self, reply: Reply) -> Reply:
        """Answers the terminal's blocks until it says something else."""
        while reply.is_block or reply.word == "reset":
            reply = self.resets() if reply.word == "reset" else self.answers(reply)
        return reply

    def resets(self) -> Reply:
        """The terminal resets the card."""
        self.line.reset()
        self.engine = Engine(self.program, "card", self.atr)
        if len(self.line.lines) > MOST:
            raise Missed("the terminal resets the card without end")
        return self.device.asks(f"reset {octets_in(self.atr)}")

    def answers(self, reply: Reply) -> Reply:
        """Hands a block to the card, and its answer to the terminal."""
        sent = self.says("t", reply)
        if "card" in self.plan:
            return self.is_quiet() if sent.came is None else self.follows(self.plan["card"])
        self.engine.adds(sent.recorded())
        if sent.came is None:
            return self.is_quiet()
        turn = self.engine.turn()
        while turn.word == "asked":
            self.engine.adds(f"asked {octets_in(turn.octets)}")
            self.engine.adds(self.host(turn.octets))
            turn = self.engine.turn()
        came = self.card_sends(turn.octets)
        self.engine.adds(came.recorded(turn.octets))
        return self.is_quiet() if came.came is None else self.device.asks(octets_in(came.came))

    def card_sends(self, octets: bytes) -> Sent:
        """Carries a block of the card. The scenario may say how many microseconds the card takes for it. A terminal
        that stops waiting before is heard, and the scenario ends."""
        pauses = self.plan.get("pauses")
        if not pauses:
            return self.carries("c", octets)
        pause, self.plan["pauses"] = pauses[0], pauses[1:]
        reply = self.waits(pause)
        if reply.word != "nothing":
            if reply.is_block:
                self.says("t", reply)
            raise Missed(f"it waited {reply.waited} microseconds, and the card's block came after {pause}")
        return self.carries("c", octets, pause)

    def waits(self, microseconds: int) -> Reply:
        """What a terminal with times of its own does while nothing comes, up to so many microseconds after the end of
        the last block that it sent or heard: `nothing` if it still waits then."""
        reply = self.device.asks(f"until {microseconds}")
        if reply.waited > microseconds:
            raise Broken(f"it said `wait {reply.waited}` to `until {microseconds}`")
        return reply

    def follows(self, blocks: List[str]) -> Reply:
        """Sends the next block of the scenario, in place of what a card would send."""
        if not blocks:
            raise Missed("it sent more blocks than the scenario answers")
        self.plan["card"] = blocks[1:]
        came = self.card_sends(bytes.fromhex(blocks[0]))
        return self.is_quiet() if came.came is None else self.device.asks(octets_in(came.came))

    def host(self, command: bytes) -> str:
        """What the card's host does with a command: a request for time or a size first, or the reply."""
        for word in ("time", "ifsc"):
            if self.plan.get(word):
                octets, self.plan[word] = self.plan[word][0], self.plan[word][1:]
                return f"{word} {octets}"
        self.served.append(command)
        return f"reply {octets_in(self.plan.get('reply', b''))}"

    def is_quiet(self) -> Reply:
        """The waiting time of the terminal ends. One with times of its own says when."""
        if not self.declaration.has_own_times:
            self.line.quiet()
            return self.device.asks("-")
        reply = self.waits(self.declaration.longest_wait)
        if reply.word == "nothing":
            raise Missed(f"it waited longer for the card than {self.declaration.longest_wait} microseconds, the "
                         "longest that it declares")
        self.line.quiet(0)
        if not reply.is_block:
            self.line.passes(reply.waited)
        return reply


PLAYS = {"card": CardPlay, "terminal": TerminalPlay}
