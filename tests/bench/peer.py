"""A card behind a pseudo-terminal, for tests of `scard-bench suite --serial`: it hands what comes over the line to a
device of the suite, and takes as long as octets on a line take."""
import os
import select
import threading
import time
import tty

from suites import Device

OCTET = 12 / 9600
# seconds after which the card answers a reset, since the tester has to set the port first
RESET = 0.05


class Peer(threading.Thread):
    """The far end of a pseudo-terminal. `late` are the seconds that the card waits beyond what it says. The flags say
    that it doesn't wait for the end of a block, says each answer twice, sends back what it gets, or hangs up after a
    block."""

    def __init__(self, command, late=0.0, is_early=False, is_double=False, is_echo=False, hangs_up=False):
        super().__init__(daemon=True)
        self.master, slave = os.openpty()
        tty.setraw(slave)
        self.path = os.ttyname(slave)
        os.close(slave)
        self.device = Device(command, 20.0)
        self.late, self.is_early, self.is_double = late, is_early, is_double
        self.is_echo, self.hangs_up = is_echo, hangs_up
        self.rest, self.is_over = b"", False

    def run(self):
        """Serves resets and blocks until the test is over."""
        poll = select.poll()
        poll.register(self.master, select.POLLIN)
        is_open = False
        while not self.is_over:
            flags = dict(poll.poll(5)).get(self.master, 0)
            if flags & select.POLLHUP:
                is_open, self.rest = False, b""
                time.sleep(0.005)
            elif not is_open:
                is_open = True
                time.sleep(RESET)
                os.write(self.master, self.device.asks("reset").octets)
            elif flags & select.POLLIN:
                self.hears(os.read(self.master, 4096))
        self.device.ends()

    def hears(self, octets):
        """Answers a block as soon as it is whole, and damaged octets as if they were one."""
        begun = time.monotonic()
        self.rest += octets
        if len(self.rest) < 4 or len(self.rest) < self.rest[2] + 4:
            return
        block, self.rest = self.rest, b""
        if self.is_echo:
            os.write(self.master, block)
        if self.hangs_up:
            self.is_over = True
            os.close(self.master)
            return
        reply = self.device.asks(block.hex())
        end = begun if self.is_early else begun + OCTET * len(block) + reply.waited / 1e6 + 0.005 + self.late
        time.sleep(max(end - time.monotonic(), 0))
        for _ in range(1 + self.is_double):
            os.write(self.master, reply.octets)

    def ends(self):
        """Ends the card."""
        self.is_over = True
        self.join()
