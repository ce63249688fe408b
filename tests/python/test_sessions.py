"""Tests sessions over lines: two functions, a serial port, sockets, the streams of asyncio, a line with an echo, and
lines that fail. tests/python/test_faults.py has lines with faults."""
import asyncio
import pickle
import socket
import threading
import unittest

import scard

T1 = scard.T1(ifsc=32, bwi=7, cwi=13)
PACKETS = scard.Setup(T1, hertz=30_000_000, silence=scard.FOREVER)
COMMAND = bytes.fromhex("00A4040000")
GOES_ON = (scard.TurnKind.SEND, scard.TurnKind.SESSION_WAIT)
RESYNCH = scard.Block.request(scard.About.RESYNCH).encode()
RESYNCHED = scard.Block.response(scard.About.RESYNCH).encode()


def echo_host(command, granted):
    """A host that replies with the command and 9000, and stops at FF."""
    return None if command[0] == 0xFF else command + b"\x90\x00"


class SocketLine:
    """A socket as a line."""

    def __init__(self, end):
        self.end = end

    def send(self, octets):
        self.end.sendall(octets)

    def receive(self, room, microseconds):
        self.end.settimeout(None if microseconds is None else max(microseconds / 1e6, 1e-6))
        try:
            octets = self.end.recv(room)
        except (TimeoutError, socket.timeout, BlockingIOError):
            return b""
        if not octets:
            raise ConnectionResetError("the other end is gone")
        return octets


class Port:
    """A serial port by the names of pyserial, over a socket."""

    def __init__(self, end):
        self.line, self.timeout, self.waiting = SocketLine(end), None, b""

    @property
    def in_waiting(self):
        return len(self.waiting)

    def read(self, count):
        if not self.waiting:
            self.waiting = self.line.receive(259, None if self.timeout is None else self.timeout * 1e6)
        taken, self.waiting = self.waiting[:count], self.waiting[count:]
        return taken

    def write(self, octets):
        self.line.send(octets)
        return len(octets)

    def flush(self):
        pass


class Card(threading.Thread):
    """A card's session in a thread."""

    def __init__(self, end, host=echo_host, setup=PACKETS):
        super().__init__(daemon=True)
        self.session, self.host, self.ended = scard.CardSession(SocketLine(end), setup), host, None
        self.start()

    def run(self):
        try:
            self.session.serve(self.host)
        except scard.Error as error:
            self.ended = error


class Pair(unittest.TestCase):
    """A pair of sockets for each test."""

    def setUp(self):
        self.mine, self.yours = socket.socketpair(socket.AF_UNIX, socket.SOCK_SEQPACKET)

    def tearDown(self):
        self.mine.close()
        self.yours.close()


class Sockets(Pair):
    def test_exchanges(self):
        card = Card(self.yours)
        with scard.Session(SocketLine(self.mine), PACKETS) as session:
            for count in (5, 31, 32, 33, 300):
                command = bytes(range(5)) + bytes(count - 5)
                self.assertEqual(session.exchange(bytearray(command)), command + b"\x90\x00")
            session.ask_ifs(254)
            self.assertEqual(session.exchange(bytes(1000)), bytes(1000) + b"\x90\x00")
            self.assertEqual(session.exchange(b"\0\0"), b"\x67\x00")
            with self.assertRaises(scard.CallRefused) as raised:
                session.ask_ifs(0)
            self.assertEqual(raised.exception.kind, scard.TurnKind.REFUSED_RESERVED)
        self.assertRaises(scard.Closed, session.exchange, COMMAND)
        self.assertIsNone(card.ended)

    def test_a_serial_port(self):
        Card(self.yours)
        session = scard.Session(Port(self.mine), PACKETS)
        self.assertEqual(session.exchange(COMMAND), COMMAND + b"\x90\x00")

    def test_the_waits_of_a_serial_port(self):
        """Microseconds become seconds, and each wait is longer by how much an octet may be late."""
        port = Port(self.mine)
        self.yours.send(b"abcde")
        line = scard.SerialLine(port, late=250_000)
        self.assertEqual(line.receive(3, 1_500_000), b"abc")
        self.assertEqual(port.timeout, 1.75)
        self.assertEqual(line.receive(259, None), b"de")
        self.assertIsNone(port.timeout)

    def test_requests_of_the_host(self):
        said = []

        def host(command, granted):
            said.append(granted)
            return (scard.MoreTime(2), scard.AskIfs(64), b"\x90\x00")[granted]

        Card(self.yours, host)
        session = scard.Session(SocketLine(self.mine), PACKETS)
        self.assertEqual(session.exchange(COMMAND), b"\x90\x00")
        self.assertEqual(session.exchange(COMMAND), b"\x90\x00")
        self.assertEqual(said, [0, 1, 2, 0, 1, 2])

    def test_what_a_host_may_not_say(self):
        for said, error in ((bytes(65539), scard.CallRefused), (scard.AskIfs(0), scard.CallRefused),
                            (scard.MoreTime(256), OverflowError), ("9000", TypeError)):
            steps = scard.CardSessionSteps(PACKETS)
            steps.serve(0)
            block = scard.Block.i(0, COMMAND).encode()
            self.assertEqual(steps.step(scard.Event.CAME, block, 0).octets, COMMAND)
            line = scard.Functions(lambda octets: None, iter((block, b"")).__next__)
            session = scard.CardSession(scard.Functions(line.send, lambda room, wait: block), PACKETS)
            self.assertRaises(error, session.serve, lambda command, granted: said)

    def test_a_host_that_raises(self):
        block = scard.Block.i(0, COMMAND).encode()
        session = scard.CardSession(scard.Functions(lambda octets: None, lambda room, wait: block), PACKETS)

        def host(command, granted):
            raise LookupError("no such file")

        self.assertRaises(LookupError, session.serve, host)

    def test_a_line_that_ends(self):
        card = Card(self.yours)
        session = scard.Session(SocketLine(self.mine), PACKETS)
        session.exchange(COMMAND)
        self.yours.shutdown(socket.SHUT_RDWR)
        card.join(10)
        self.assertEqual(card.ended.kind, scard.TurnKind.SESSION_FAILED)
        for kind in (scard.TurnKind.SESSION_FAILED, scard.TurnKind.REFUSED_BUSY):
            with self.assertRaises(scard.TurnError) as raised:
                session.exchange(COMMAND)
            self.assertEqual(raised.exception.kind, kind)

    def test_a_second_call(self):
        """A call at a session that is in a call raises, in this thread and in others."""
        session, found = None, []

        def receive(room, microseconds):
            for call in (lambda: session.exchange(COMMAND), session.close, session.resync, lambda: session.ask_ifs(9)):
                with self.assertRaises(scard.InUse):
                    call()
            found.append(1)
            raise OSError

        session = scard.Session(scard.Functions(lambda octets: None, receive), PACKETS)
        self.assertRaises(scard.NoAnswer, session.exchange, COMMAND)
        self.assertEqual(found, [1])

    def test_a_reset_of_the_session(self):
        Card(self.yours)
        line = SocketLine(self.mine)
        first = scard.Session(line, PACKETS)
        first.exchange(COMMAND)
        again = scard.Session(line, PACKETS)
        again.resync()
        self.assertEqual(again.exchange(COMMAND + b"a"), COMMAND + b"a\x90\x00")


class Lines(unittest.TestCase):
    def session(self, answers, setup=PACKETS, now=lambda: 0):
        """A session over a line that answers each block by what is next in a list, and RESYNCH by its response."""
        left, came = iter(answers), []

        def send(octets):
            came.append(RESYNCHED if octets == RESYNCH and not setup.most_blocks else next(left))

        def receive(room, microseconds):
            octets = came.pop() if came else b""
            if isinstance(octets, BaseException):
                raise octets
            return octets

        return scard.Session(scard.Functions(send, receive), setup, now)

    def ends(self, answers, kind, **given):
        """An exchange that has to end so. Returns the session."""
        session = self.session(answers, **given)
        with self.assertRaises(scard.NoAnswer) as raised:
            session.exchange(COMMAND)
        self.assertEqual(raised.exception.kind, kind)
        self.assertEqual(pickle.loads(pickle.dumps(raised.exception)).kind, kind)
        return session

    def test_ends_of_an_exchange(self):
        kinds = scard.TurnKind
        self.ends([b""] * 20, kinds.DEAD, setup=scard.Setup(T1, silence=scard.FOREVER, most_blocks=99))
        self.ends([scard.Block.i(0, b"a").encode()], kinds.SESSION_NO_STATUS)
        self.ends([b""] * 9, kinds.GIVEN_UP)
        self.ends([b"a"] * 99, kinds.SESSION_USED_UP, setup=scard.Setup(T1, silence=scard.FOREVER, most_blocks=2))
        session = self.ends([OSError(5, "gone"), scard.Block.i(0, b"\x90\x00").encode()], kinds.SESSION_FAILED)
        session.resync()
        self.assertEqual(session.exchange(COMMAND), b"\x90\x00")

    def test_other_exceptions_go_on(self):
        for error in (KeyboardInterrupt(), ZeroDivisionError()):
            session = self.session([error])
            self.assertRaises(type(error), session.exchange, COMMAND)
            with self.assertRaises(scard.CallRefused):
                session.exchange(COMMAND)

    def test_interrupted(self):
        session = self.session([None, scard.Block.i(0, b"\x90\x00").encode()])
        self.assertEqual(session.exchange(COMMAND), b"\x90\x00")

    def test_garbled(self):
        """A block of which an octet had a wrong parity is asked for again, even if its check octet is right."""
        right = scard.Block.i(0, b"\x90\x00").encode()
        sent, came = [], []

        def send(octets):
            sent.append(octets)
            came.append(scard.Garbled(right) if len(sent) == 1 else right)

        session = scard.Session(scard.Functions(send, lambda room, wait: came.pop() if came else b""), PACKETS)
        self.assertEqual(session.exchange(COMMAND), b"\x90\x00")
        self.assertEqual([scard.Block.decode(it).kind for it in sent], [scard.Kind.I, scard.Kind.R])

    def test_echo(self):
        setup, came = scard.Setup(T1, hertz=30_000_000), []

        def send(octets):
            came.append(octets + (scard.Block.i(0, b"\x90\x00").encode() if octets[3:-1] == COMMAND else b""))

        def receive(room, microseconds):
            return came.pop() if came else b""

        line, stands = scard.Functions(send, receive), lambda: 0
        session = scard.Session(line, scard.Setup(T1, hertz=30_000_000, echo=True), stands)
        self.assertEqual(session.exchange(COMMAND), b"\x90\x00")
        only_echo = scard.Functions(came.append, receive)
        with self.assertRaises(scard.NoAnswer) as raised:
            scard.Session(only_echo, setup, stands).exchange(COMMAND)
        self.assertEqual(raised.exception.kind, scard.TurnKind.SESSION_ECHO)

    def test_setups_that_are_none(self):
        for change in ({"fi": 0}, {"di": 0}, {"di": 65}, {"hertz": 999}, {"silence": 10**9}, {"t1": scard.T1(0, 4, 13)},
                       {"t1": scard.T1(32, 16, 13)}):
            setup = scard.Setup(**{"t1": T1, **change})
            self.assertRaises(scard.Argument, scard.SessionSteps, setup)
            self.assertRaises(scard.Argument, scard.CardSession, None, setup)
        for change in ({"fi": 65536}, {"hertz": 2**32}, {"most_blocks": -1}, {"command_room": 65545},
                       {"silence": 2**64}):
            self.assertRaises(OverflowError, scard.SessionSteps, scard.Setup(T1, **change))

    def test_limits_of_time(self):
        """With a clock an exchange ends once its time is over. Without one, `now` says nothing."""
        kinds = []
        for has_clock in (True, False):
            steps = scard.SessionSteps(scard.Setup(T1, silence=scard.FOREVER, most_microseconds=1_000_000), has_clock)
            steps.exchange(COMMAND, 0)
            self.assertEqual(steps.step(scard.Event.SILENT, b"", 0).kind, scard.TurnKind.SEND)
            steps.step(scard.Event.SENT, b"", 500_000)
            kinds.append(steps.step(scard.Event.CAME, b"", 2_000_000).kind)
            kinds.append(steps.step(scard.Event.CAME, b"", 2_000_000).kind if kinds[-1] in GOES_ON else None)
        self.assertEqual(kinds[2:], [scard.TurnKind.SESSION_WAIT] * 2)
        self.assertNotEqual(kinds[:2], kinds[2:])

    def test_a_host_that_takes_short_messages(self):
        for takes, kind in ((True, scard.TurnKind.DONE), (False, scard.TurnKind.SEND)):
            steps = scard.CardSessionSteps(scard.Setup(T1, silence=scard.FOREVER, host_takes_short=takes))
            steps.serve(0)
            step = steps.step(scard.Event.CAME, scard.Block.i(0, b"ab").encode(), 0)
            while step.kind is scard.TurnKind.SESSION_WAIT:
                step = steps.step(scard.Event.SILENT, b"", 0)
            self.assertEqual(step.kind, kind)

    def test_steps_in_no_order(self):
        for steps in (scard.SessionSteps(PACKETS), scard.CardSessionSteps(PACKETS)):
            for event in scard.Event:
                self.assertEqual(steps.step(event, b"", 0).kind, scard.TurnKind.REFUSED_ORDER)
            self.assertEqual(steps.step(200, b"a", 0).kind, scard.TurnKind.REFUSED_ORDER)
            self.assertRaises(TypeError, pickle.dumps, steps)
            steps.close()
            steps.close()
            self.assertRaises(scard.Closed, steps.step, scard.Event.SENT, b"", 0)

    def test_what_is_closed_is_overwritten(self):
        session = self.session([scard.Block.i(0, b"secret\x90\x00").encode()])
        self.assertEqual(session.exchange(COMMAND), b"secret\x90\x00")
        session.close()
        self.assertRaises(scard.Closed, session.resync)


class Slow:
    """A line whose read has octets some time before it returns them. A read that is cancelled meanwhile loses them."""

    def __init__(self, line, seconds):
        self.line, self.seconds, self.write = line, seconds, line.write

    async def read(self, most):
        octets = await self.line.read(most)
        await asyncio.sleep(self.seconds)
        return octets


class Streams(unittest.TestCase):
    async def pair(self):
        """Two lines of asyncio, the ends of a pair of sockets."""
        lines = []
        for end in socket.socketpair():
            lines.append(scard.StreamLine(*await asyncio.open_connection(sock=end)))
        return lines

    async def serves(self, line):
        """A card that serves until its task is cancelled."""
        async def host(command, granted):
            return echo_host(command, granted) if granted else scard.MoreTime(1)

        async with scard.AsyncCardSession(line, PACKETS) as session:
            await session.serve(host)

    async def exchanges(self, count):
        """Exchanges with a card in the same loop."""
        mine, yours = await self.pair()
        card, right = asyncio.ensure_future(self.serves(yours)), 0
        async with scard.AsyncSession(mine, PACKETS) as session:
            await session.ask_ifs(100)
            for number in range(count):
                command = COMMAND + bytes([number])
                right += await session.exchange(command) == command + b"\x90\x00"
        card.cancel()
        await asyncio.wait({card})
        self.closes(mine, yours)
        return right

    def closes(self, *lines):
        """Closes lines."""
        for line in lines:
            line.close()

    def test_many_cards_in_one_loop(self):
        async def all_of_them():
            return await asyncio.gather(*(self.exchanges(5) for _ in range(8)))

        self.assertEqual(asyncio.run(all_of_them()), [5] * 8)

    def test_no_octet_is_lost_at_a_timeout(self):
        """The answer comes in two pieces. A read that began before the block was sent returns the first one."""
        async def slow():
            mine, yours = await self.pair()
            block = scard.Block.i(0, b"\x90\x00").encode()

            async def answers():
                await yours.read(99)
                await yours.write(block[:2])
                await asyncio.sleep(0.005)
                await yours.write(block[2:])

            task = asyncio.ensure_future(answers())
            answer = await scard.AsyncSession(Slow(mine, 0.01), PACKETS).exchange(COMMAND)
            await task
            self.closes(mine, yours)
            return answer

        self.assertEqual(asyncio.run(slow()), b"\x90\x00")

    def test_a_read_goes_on_after_its_wait(self):
        """The card answers the first block so late that the terminal asks again. The late answer is read too."""
        async def late():
            mine, yours = await self.pair()
            setup, sent = scard.Setup(scard.T1(32, 0, 5), hertz=30_000_000, silence=scard.FOREVER), []

            async def answers():
                while len(sent) < 2:
                    sent.append(await yours.read(99))
                    await yours.write(scard.Block.i(0, b"\x90\x00").encode())

            task = asyncio.ensure_future(answers())
            session = scard.AsyncSession(Slow(mine, 0.02), setup)
            answer = await session.exchange(COMMAND)
            task.cancel()
            session.close()
            self.closes(mine, yours)
            return answer

        self.assertEqual(asyncio.run(late()), b"\x90\x00")

    def test_cancelled_and_ended(self):
        async def ends():
            mine, yours = await self.pair()
            session, kinds = scard.AsyncSession(mine, PACKETS), []
            try:
                await asyncio.wait_for(session.exchange(COMMAND), 0.01)
            except asyncio.TimeoutError:
                kinds.append("cancelled")
            try:
                await session.exchange(COMMAND)
            except scard.CallRefused as refused:
                kinds.append(refused.kind.name)
            session.close()
            self.closes(mine, yours)
            return kinds

        self.assertEqual(asyncio.run(ends()), ["cancelled", "REFUSED_BUSY"])

    def test_the_end_of_a_stream(self):
        async def ends():
            mine, yours = await self.pair()
            yours.close()
            with self.assertRaises(scard.NoAnswer) as raised:
                async with scard.AsyncSession(mine, PACKETS) as session:
                    await session.exchange(COMMAND)
            mine.close()
            return raised.exception.kind

        self.assertEqual(asyncio.run(ends()), scard.TurnKind.SESSION_FAILED)


if __name__ == "__main__":
    unittest.main(verbosity=0)
