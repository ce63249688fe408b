"""The wrong devices: each is a plain one with one line changed. A name says what is wrong; the old line is in the plain
device once."""

# lines of the plain devices that several changes are about
ABORTED = ("        self.command, self.answer, self.last, self.is_open, self.was_aborted = "
           "b\"\", b\"\", None, False, True")
OUTSIDE = "        return self.changed(octets, nad >> 4 | nad << 4 & 0xF0) if octets else octets"
# the line by which the plain card answers
SAYS = "            print(f\"wait {TURN}\\n\" + (said.hex() if said else \"-\"), flush=True)"


def late(condition):
    """The line by which a card waits too long if a condition holds."""
    return f"            print(\"wait 5000000\\n\" * ({condition}) + said.hex(), flush=True)"


CARDS = {
    "its check octet is wrong": ("    return octets + bytes([check(octets)])",
                                 "    return octets + bytes([check(octets) ^ 1])"),
    "its LEN counts the check octet": ("    octets = bytes([0x00, pcb, len(field)]) + field",
                                       "    octets = bytes([0x00, pcb, len(field) + 1]) + field"),
    "it sends another node address": ("    octets = bytes([0x00, pcb, len(field)]) + field",
                                      "    octets = bytes([0x10, pcb, len(field)]) + field"),
    "it checks no check octet": (
        "    if len(octets) < 4 or len(octets) != octets[2] + 4 or octets[2] > IFSC or check(octets) != 0:",
        "    if len(octets) < 4 or len(octets) != octets[2] + 4 or octets[2] > IFSC:"),
    "it checks no length": (
        "    if len(octets) < 4 or len(octets) != octets[2] + 4 or octets[2] > IFSC or check(octets) != 0:",
        "    if len(octets) < 4 or octets[2] > IFSC or check(octets) != 0:"),
    "it checks no node address": ("    if nad != 0x00:", "    if nad == 0xFF:"),
    "it takes R-blocks with a reserved bit": ("        return R if pcb & 0xEC == 0x80 and size == 0 else None",
                                              "        return R if size == 0 else None"),
    "it takes R-blocks with a field": ("        return R if pcb & 0xEC == 0x80 and size == 0 else None",
                                       "        return R if pcb & 0xEC == 0x80 else None"),
    "it takes requests of any length": ("    return S if pcb in (0xC1, 0xC3, 0xE1, 0xE3) and size == 1 else None",
                                        "    return S if pcb in (0xC1, 0xC3, 0xE1, 0xE3) else None"),
    "it answers requests for time": ("        if octets[1] != 0xC1 or octets[3] in (0, 255):",
                                     "        if octets[1] not in (0xC1, 0xC3) or octets[3] in (0, 255):"),
    "it takes responses for requests": ("        if octets[1] != 0xC1 or octets[3] in (0, 255):",
                                        "        if octets[1] not in (0xC1, 0xE1) or octets[3] in (0, 255):"),
    "it takes a size of 0": ("        if octets[1] != 0xC1 or octets[3] in (0, 255):",
                             "        if octets[1] != 0xC1 or octets[3] == 255:"),
    "it takes a size of 255": ("        if octets[1] != 0xC1 or octets[3] in (0, 255):",
                               "        if octets[1] != 0xC1 or octets[3] == 0:"),
    "it ignores the size": ("        self.ifsd = octets[3]", "        pass"),
    "it answers a size with 32": ("        return block(0xE1, octets[3:4])", "        return block(0xE1, bytes([32]))"),
    "its size is one too large": (
        "        field, self.answer = self.answer[:self.ifsd], self.answer[self.ifsd:]",
        "        field, self.answer = self.answer[:self.ifsd + 1], self.answer[self.ifsd + 1:]"),
    "it loses an octet between blocks": (
        "        field, self.answer = self.answer[:self.ifsd], self.answer[self.ifsd:]",
        "        field, self.answer = self.answer[:self.ifsd], self.answer[self.ifsd + 1:]"),
    "its chain never has the more bit": (
        "        self.last = block(self.number << 6 | (0x20 if self.is_open else 0), field)",
        "        self.last = block(self.number << 6, field)"),
    "its number is always 0": ("        self.number ^= 1", "        self.number = 0"),
    "it expects the number 0": ("        self.expected ^= 1", "        self.expected = 0"),
    "it takes any number": ("        if number != self.expected or self.is_open:", "        if self.is_open:"),
    "it takes a command within its answer": ("        if number != self.expected or self.is_open:",
                                             "        if number != self.expected:"),
    "it acts again when asked for its answer": (
        "        if self.last is not None and number != self.number:\n            return self.last",
        "        if self.last is not None and number != self.number:\n            return self.repeats()"),
    "it ignores R-blocks": ("        return {I: self.hears_i, R: self.hears_r, S: self.hears_s}[kind](octets)",
                            "        return {I: self.hears_i, R: lambda it: b\"\", S: self.hears_s}[kind](octets)"),
    "it repeats whatever the R-block says": ("        if self.last is not None and number != self.number:",
                                             "        if self.last is not None:"),
    "it goes on whatever the R-block says": ("        if self.is_open and number == self.number:",
                                             "        if self.is_open:"),
    "it acknowledges with the wrong number": (
        "        if more:\n            return block(0x80 | self.expected << 4)",
        "        if more:\n            return block(0x80 | (self.expected ^ 1) << 4)"),
    "it acknowledges with an error": ("        if more:\n            return block(0x80 | self.expected << 4)",
                                      "        if more:\n            return block(0x81 | self.expected << 4)"),
    "it refuses with the wrong number": ("        return block(0x80 | self.expected << 4 | error)",
                                         "        return block(0x80 | (self.expected ^ 1) << 4 | error)"),
    "it is silent at damage": ("            return self.refuses(1 if len(octets) > 3 and check(octets) else 2)",
                               "            return b\"\""),
    "it sends its last block at damage": (
        "            return self.refuses(1 if len(octets) > 3 and check(octets) else 2)",
        "            return self.last or self.refuses(2)"),
    "it keeps its numbers over RESYNCH": (
        "        self.expected, self.number, self.ifsd = 0, 0, 32",
        "        self.expected, self.number, self.ifsd = getattr(self, \"expected\", 0), "
        "getattr(self, \"number\", 0), 32"),
    "it keeps a chain over RESYNCH": (
        "        self.command, self.answer, self.last, self.request, self.is_open = b\"\", b\"\", None, None, False",
        "        self.command, self.answer, self.last, self.request, self.is_open = "
        "getattr(self, \"command\", b\"\"), b\"\", None, None, False"),
    "it answers RESYNCH with a request": ("            return block(0xE0)", "            return block(0xC0)"),
    "it doesn't answer RESYNCH while it asks": ("        if kind == S and octets[1] == 0xC0:",
                                                "        if kind == S and octets[1] == 0xC0 and self.request is None:"),
    "it takes any response for time": ("        if octets != block(0xE3, self.request[3:4]):",
                                       "        if kind_of(octets) != S:"),
    "it goes on without a response for time": ("        if octets != block(0xE3, self.request[3:4]):",
                                               "        if octets[1] == 0xC0:"),
    "its request for time changes when it repeats": (
        "            return self.request\n        self.request = None",
        "            return block(0xC3, bytes([self.request[3] + 1]))\n        self.request = None"),
    "it joins a message to the one before": ("        self.command = b\"\"\n        return self.sends()",
                                             "        return self.sends()"),
    "it cuts an answer of 256 octets": ("            return bytes(range(command[4] or 256)) + b\"\\x90\\x00\"",
                                        "            return bytes(range(command[4])) + b\"\\x90\\x00\""),
    "it hangs at R-blocks": ("        number = octets[1] >> 4 & 1", "        number = sys.stdin.read()"),
    "it ends at damage": ("            return self.refuses(1 if len(octets) > 3 and check(octets) else 2)",
                          "            sys.exit(1)"),
    "it doesn't answer ABORT": ("            return self.aborts()", "            return self.refuses(2)"),
    "it answers ABORT once": ("        if octets[1] == 0xC2 and (self.command or self.is_open or self.was_aborted):",
                              "        if octets[1] == 0xC2 and (self.command or self.is_open):"),
    "it answers ABORT as RESYNCH": ("        return block(0xE2)", "        return block(0xE0)"),
    "it keeps the command over ABORT": (
        ABORTED,
        "        self.answer, self.last, self.is_open, self.was_aborted = b\"\", None, False, True"),
    "it goes on with its chain after ABORT": (
        ABORTED,
        "        self.command, self.was_aborted = b\"\", True"),
    "it acts on a command that was aborted": (
        ABORTED,
        "        self.application.served += 1\n" + ABORTED),
    "it swaps no node addresses": (OUTSIDE,
                                   "        return self.changed(octets, nad) if octets else octets"),
    "it never sends node addresses": (
        OUTSIDE, "        return octets"),
    "it takes other node addresses than the first": (
        "        return self.changed(octets, nad if nad == self.first else 0)",
        "        return self.changed(octets, nad if self.first is not None else 0)"),
    "it takes a node address with bit 8": (
        "        if self.first is None and nad & 0x88 == 0 and (nad == 0 or nad >> 4 != nad & 7):",
        "        if self.first is None and nad & 0x08 == 0 and (nad == 0 or nad >> 4 != nad & 7):"),
    "it takes a node address with bit 4": (
        "        if self.first is None and nad & 0x88 == 0 and (nad == 0 or nad >> 4 != nad & 7):",
        "        if self.first is None and nad & 0x80 == 0 and (nad == 0 or nad >> 4 != nad & 7):"),
    "it takes no field that is full": (
        "    if len(octets) < 4 or len(octets) != octets[2] + 4 or octets[2] > IFSC or check(octets) != 0:",
        "    if len(octets) < 4 or len(octets) != octets[2] + 4 or octets[2] >= IFSC or check(octets) != 0:"),
    "it sends an empty block after a full one": ("        self.is_open = bool(self.answer)",
                                                 "        self.is_open = len(field) == self.ifsd"),
    "it takes no empty block": ("        return I if pcb & 0x1F == 0 else None",
                                "        return I if pcb & 0x1F == 0 and size > 0 else None"),
    "it forgets the begin of a chain at damage": (
        "        return block(0x80 | self.expected << 4 | error)",
        "        self.command = b\"\"\n        return block(0x80 | self.expected << 4 | error)"),
    "it asks for its R-block again by the wrong number": (
        "            return self.last\n        return block(0x80 | self.expected << 4)",
        "            return self.last\n        return block(0x80 | (self.expected ^ 1) << 4)"),
    "it ignores a reset": ("            card, addresses = Card(), Addresses()", "            addresses = Addresses()"),
    "it waits too long with acknowledgments": (SAYS, late("said[1] & 0xCF == 0x80")),
    "it waits too long with sizes": (SAYS, late("said[1] == 0xE1")),
    "it waits too long with RESYNCH": (SAYS, late("said[1] == 0xE0")),
    "it waits too long with requests": (SAYS, late("said[1] == 0xC3")),
    "it waits longer than was granted": (
        SAYS,
        "            print(\"wait 5500000\\n\" * (line[2:4].upper() == \"E3\") + said.hex(), flush=True)"),
    "it waits a millisecond longer than BWT": (SAYS, SAYS.replace("TURN", "1_601_146 - 1_250 + 1_000")),
    "it waits too long": (SAYS,
                          "            print(\"wait 5000000\\n\" + (said.hex() if said else \"-\"), flush=True)"),
}

TERMINALS = {
    "its check octet is wrong": CARDS["its check octet is wrong"],
    "its LEN counts the check octet": CARDS["its LEN counts the check octet"],
    "its node address has bit 8": ("    octets = bytes([0x00, pcb, len(field)]) + field",
                                   "    octets = bytes([0x80, pcb, len(field)]) + field"),
    "it checks no check octet": (
        "    if len(octets) < 4 or len(octets) != octets[2] + 4 or octets[2] > IFSD or check(octets) != 0:",
        "    if len(octets) < 4 or len(octets) != octets[2] + 4 or octets[2] > IFSD:"),
    "it checks no length": (
        "    if len(octets) < 4 or len(octets) != octets[2] + 4 or octets[2] > IFSD or check(octets) != 0:",
        "    if len(octets) < 4 or octets[2] > IFSD or check(octets) != 0:"),
    "it checks no node address": CARDS["it checks no node address"],
    "it takes R-blocks with a field": CARDS["it takes R-blocks with a field"],
    "it takes any other block for a request": (
        "    return S if pcb in (0xC1, 0xC3) and size == 1 else None", "    return S"),
    "it takes responses for requests": ("    return S if pcb in (0xC1, 0xC3) and size == 1 else None",
                                        "    return S if pcb in (0xC1, 0xC3, 0xE1) and size == 1 else None"),
    "it answers RESYNCH": ("    if pcb == 0xE0:", "    if pcb in (0xC0, 0xE0):"),
    "it takes a size of 0": (
        "        if octets[1] == 0xC1 and octets[3] in (0, 255) or octets[1] == 0xE0:",
        "        if octets[1] == 0xC1 and octets[3] == 255 or octets[1] == 0xE0:"),
    "it takes a size of 255": ("        if octets[1] == 0xC1 and octets[3] in (0, 255) or octets[1] == 0xE0:",
                               "        if octets[1] == 0xC1 and octets[3] == 0 or octets[1] == 0xE0:"),
    "it ignores the size of a request": ("            self.ifsc = octets[3]", "            pass"),
    "it ignores the size of the answer to reset": (
        "    return atr[4] if len(atr) > 5 else 32", "    return 32"),
    "its fields have 254 octets": ("    return atr[4] if len(atr) > 5 else 32", "    return 254"),
    "its size is one too large": (
        "        field, self.command = self.command[:self.ifsc], self.command[self.ifsc:]",
        "        field, self.command = self.command[:self.ifsc + 1], self.command[self.ifsc + 1:]"),
    "it loses an octet between blocks": (
        "        field, self.command = self.command[:self.ifsc], self.command[self.ifsc:]",
        "        field, self.command = self.command[:self.ifsc], self.command[self.ifsc + 1:]"),
    "its chain never has the more bit": CARDS["its chain never has the more bit"],
    "its number is always 0": CARDS["its number is always 0"],
    "it expects the number 0": CARDS["it expects the number 0"],
    "it takes any number": CARDS["it takes any number"],
    "it takes an answer within its command": ("        if number != self.expected or self.is_open:",
                                              "        if number != self.expected:"),
    "it repeats whatever the R-block says": CARDS["it repeats whatever the R-block says"],
    "it never repeats": ("            return self.fails(0, self.last)", "            return self.fails(0)"),
    "it goes on whatever the R-block says": CARDS["it goes on whatever the R-block says"],
    "it sends the next block in place of a repeat": ("            return self.fails(0, self.last)",
                                                     "            return self.sends()"),
    "it acknowledges with the wrong number": CARDS["it acknowledges with the wrong number"],
    "it acknowledges with an error": CARDS["it acknowledges with an error"],
    "it refuses with the wrong number": (
        "        return again if again is not None else block(0x80 | self.expected << 4 | error)",
        "        return again if again is not None else block(0x80 | (self.expected ^ 1) << 4 | error)"),
    "it sends its command again at silence": (
        "            return self.fails(0 if octets is None else 1 if len(octets) > 3 and check(octets) else 2)",
        "            return self.fails(0, self.last)"),
    "it gives up at the first failure": ("        if self.failures > MOST:", "        if self.failures > 0:"),
    "it gives up at the second failure": ("        if self.failures > MOST:", "        if self.failures > 1:"),
    "it never gives up": ("        if self.failures > MOST:", "        if self.failures > 1000:"),
    "it corrects once too often": ("        if self.failures > MOST:", "        if self.failures > MOST + 1:"),
    "it fails without RESYNCH": ("            self.tries = 1\n            return block(0xC0)",
                                 "            return FAILED"),
    "it asks for RESYNCH without end": ("        if self.tries > 3:", "        if self.tries > 3000:"),
    "it asks for RESYNCH four times": ("        if self.tries > 3:", "        if self.tries > 4:"),
    "it keeps its numbers over RESYNCH": (
        "        self.number, self.expected, self.ifsc = 0, 0, self.first",
        "        self.number, self.expected, self.ifsc = getattr(self, \"number\", 0), "
        "getattr(self, \"expected\", 0), self.first"),
    "it goes on with the command after RESYNCH": (
        "            self.resynchs()\n            return FAILED",
        "            rest = self.command\n            self.resynchs()\n"
        "            return self.transmits(rest) if rest else FAILED"),
    "it answers time with another multiple": ("        return block(octets[1] | 0x20, octets[3:4])",
                                              "        return block(octets[1] | 0x20, bytes([octets[3] ^ 1]))"),
    "it doesn't answer requests": ("        return block(octets[1] | 0x20, octets[3:4])",
                                   "        return self.fails(0)"),
    "it doesn't answer ABORT": ("            return self.aborts()", "            return self.fails(2)"),
    "it answers ABORT once": ("        if not (self.is_open or self.answer or self.was_aborted):",
                              "        if not (self.is_open or self.answer):"),
    "it answers ABORT as RESYNCH": ("        return block(0xE2)", "        return block(0xE0)"),
    "it sends an empty block after ABORT": (
        "        if self.was_aborted:\n            return FAILED",
        "        if self.was_aborted:\n            return self.sends()"),
    "it counts a new chain from 0 after ABORT": (
        ABORTED,
        ABORTED + "\n"
        "        self.number = 0"),
    "it takes a node address with bit 8": ("    if nad != 0x00:", "    if nad & 0x7F != 0x00:"),
    "it takes a node address with bit 4": ("    if nad != 0x00:", "    if nad & 0xF7 != 0x00:"),
    "it takes a node address with the same end twice": ("    if nad != 0x00:", "    if nad not in (0x00, 0x11):"),
    "it takes no field that is full": (
        "    if len(octets) < 4 or len(octets) != octets[2] + 4 or octets[2] > IFSD or check(octets) != 0:",
        "    if len(octets) < 4 or len(octets) != octets[2] + 4 or octets[2] >= IFSD or check(octets) != 0:"),
    "it sends an empty block after a full one": ("        self.is_open = bool(self.command)",
                                                 "        self.is_open = len(field) == self.ifsc"),
    "it takes no request for 0 or 255 waiting times": (
        "        if octets[1] == 0xC1 and octets[3] in (0, 255) or octets[1] == 0xE0:",
        "        if octets[1] in (0xC1, 0xC3) and octets[3] in (0, 255) or octets[1] == 0xE0:"),
    "it takes no size below 16": ("            self.ifsc = octets[3]", "            self.ifsc = max(octets[3], 16)"),
    "it joins an answer to the one before": (
        "        self.command, self.answer, self.failures, self.tries = command, b\"\", 0, 0",
        "        self.command, self.failures, self.tries = command, 0, 0"),
    "it reports the answer without its end": ("        return f\"answer {self.answer.hex()}\"",
                                              "        return f\"answer {self.answer[:-1].hex()}\""),
    "it hangs at silence": (
        "            return self.fails(0 if octets is None else 1 if len(octets) > 3 and check(octets) else 2)",
        "            return sys.stdin.read()"),
    "it ends at damage": (
        "            return self.fails(0 if octets is None else 1 if len(octets) > 3 and check(octets) else 2)",
        "            sys.exit(1)"),
    "it answers the same request once": (
        "        return block(octets[1] | 0x20, octets[3:4])",
        "        seen, self.seen = getattr(self, \"seen\", None), octets\n"
        "        return block(octets[1] | 0x20, octets[3:4]) if seen != octets else self.fails(0)"),
    "it sends its command again at a second silence": (
        "            return self.fails(0 if octets is None else 1 if len(octets) > 3 and check(octets) else 2)",
        "            return self.fails(0 if octets is None else 1 if len(octets) > 3 and check(octets) else 2,\n"
        "                              self.last if octets is None and self.failures else None)"),
    "it waits for half of BWT": ("        self.bwt = bwt_of(atr)", "        self.bwt = bwt_of(atr) // 2"),
    "it waits a millisecond less than BWT": ("        self.bwt = bwt_of(atr)",
                                             "        self.bwt = bwt_of(atr) - 1_000 - 1_250"),
    "it waits for a minute": ("        self.bwt = bwt_of(atr)", "        self.bwt = bwt_of(atr) + 60_000_000"),
    "it waits without end": ("    if word == \"until\" and terminal.wait > int(octets):",
                             "    if word == \"until\":"),
    "it ignores BWI": ("    return 1_146 + (100_000 << bwi)", "    return 1_146 + (100_000 << 4)"),
    "it grants no time": ("        terminal.wait = terminal.bwt * (reply[3] or 1)", "        pass"),
    "it keeps the time that it granted": (
        "    terminal.wait = terminal.bwt\n    if reply[1] == 0xE3:",
        "    terminal.wait = max(terminal.wait, terminal.bwt)\n    if reply[1] == 0xE3:"),
    "it sends before BGT": (
        "    waited = terminal.wait if word == \"until\" and reply != IDLE else TURN",
        "    waited = terminal.wait if word == \"until\" and reply != IDLE else 1_000"),
}

# a wrong device for each topic of the suite, which fails a scenario of that topic, though it passes a plain exchange
OF_TOPICS = {
    "card": {
        "node address": "it checks no node address", "rules 1 and 2.1": "it expects the number 0",
        "chains": "its chain never has the more bit", "WTX": "it answers requests for time",
        "IFS": "it ignores the size", "RESYNCH": "it keeps a chain over RESYNCH",
        "rule 7.1": "it checks no check octet", "rule 7.2": "it asks for its R-block again by the wrong number",
        "rule 7.3": "its request for time changes when it repeats", "rule 7.4": "it keeps its numbers over RESYNCH",
        "ABORT": "it answers ABORT once", "times": "it waits too long with sizes",
    },
    "terminal": {
        "node address": "it checks no node address", "rules 1 and 2.1": "it expects the number 0",
        "chains": "its chain never has the more bit", "WTX": "it answers time with another multiple",
        "IFS": "it ignores the size of a request", "RESYNCH": "it goes on with the command after RESYNCH",
        "rule 7.1": "it checks no check octet", "rule 7.2": "it sends its command again at a second silence",
        "rule 7.3": "it answers the same request once", "rule 7.4": "it corrects once too often",
        "ABORT": "it answers ABORT once", "times": "it waits a millisecond less than BWT",
    },
}
