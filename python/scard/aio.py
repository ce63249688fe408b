"""Sessions of T=1 for asyncio, over an object with the coroutines `write(octets)` and `read(most)`."""
from __future__ import annotations

import asyncio
import threading
from typing import Any, Awaitable, Callable, Optional, Protocol, Tuple, Union

from ._numbers import Event, TurnKind
from ._octets import Octets
from .session import (BURST_ROOM, CardSessionSteps, Said, SessionSteps, Setup, Step, _Alone, answer_of, came, clock,
                      host_step, wait_of)
from ._errors import NoAnswer


class AsyncLine(Protocol):
    """The line of a session. An exception says that it failed. `write` returns once the last bit is on the line.
    `read` waits without limit for octets, and returns some as soon as there are any. No octets are the end of the
    line."""

    async def write(self, octets: bytes) -> object: ...

    async def read(self, most: int) -> bytes: ...


class StreamLine:
    """The two streams of asyncio as a line."""

    def __init__(self, reader: asyncio.StreamReader, writer: asyncio.StreamWriter) -> None:
        self.read = reader.read
        self._writer = writer

    async def write(self, octets: bytes) -> None:
        """Sends octets."""
        self._writer.write(octets)
        await self._writer.drain()

    def close(self) -> None:
        """Closes the streams."""
        self._writer.close()


def _is_over(reading: asyncio.Future[bytes]) -> None:
    """Takes the exception of a read that nobody waits for any more."""
    if not reading.cancelled():
        reading.exception()


class _OverStream:
    """The loop of both ends. A read that no octet ended within its wait goes on, so no octet is lost at a timeout."""

    def __init__(self, line: AsyncLine, steps: Union[SessionSteps, CardSessionSteps], now: Callable[[], int]) -> None:
        self._line = line
        self._steps = steps
        self._now = now
        self._lock = threading.Lock()
        self._reading: Optional[asyncio.Future[bytes]] = None

    async def _came(self, wait: Optional[int]) -> Tuple[Event, bytes]:
        """Waits for octets, and returns what happened."""
        if self._reading is None:
            self._reading = asyncio.ensure_future(self._line.read(BURST_ROOM))
        done, _ = await asyncio.wait({self._reading}, timeout=None if wait is None else wait / 1e6)
        if not done:
            return Event.SILENT, b""
        reading, self._reading = self._reading, None
        octets = reading.result()
        if not octets:
            raise EOFError("the line has ended")
        return came(octets)

    async def _happens(self, step: Step) -> Tuple[Event, bytes]:
        """Does what a step says, and returns what happened."""
        if step.kind is TurnKind.SEND:
            await self._line.write(step.octets)
            return Event.SENT, b""
        return await self._came(wait_of(step))

    async def _rest(self, step: Step) -> Step:
        """Goes on until the session rests. An exception of the line is a failed line, and so is the end of the task."""
        while not step.rests:
            try:
                event, octets = await self._happens(step)
            except BaseException as error:
                step = self._steps.step(Event.FAILED, b"", self._now())
                if isinstance(error, (OSError, EOFError)):
                    raise NoAnswer(step.kind) from error
                raise
            step = self._steps.step(event, octets, self._now())
        return step

    def _alone(self) -> _Alone:
        """Raises InUse if another call uses the session."""
        return _Alone(self._lock)

    def close(self) -> None:
        """Overwrites the last messages, and ends a read that waits. After it, other calls raise Closed."""
        with self._alone():
            self._steps.close()
            if self._reading is not None:
                self._reading.cancel()
                self._reading.add_done_callback(_is_over)
                self._reading = None

    async def __aenter__(self) -> Any:
        return self

    async def __aexit__(self, *_: object) -> None:
        self.close()

    def __reduce__(self) -> Any:
        raise TypeError("a session can't be pickled or copied")


class AsyncSession(_OverStream):
    """A terminal's session over a line of asyncio. Begin it at a reset of the card."""

    _steps: SessionSteps

    def __init__(self, line: AsyncLine, setup: Setup, now: Callable[[], int] = clock) -> None:
        super().__init__(line, SessionSteps(setup), now)

    async def exchange(self, command: Octets) -> bytes:
        """Sends a command, and returns its answer, as Session.exchange does. If the task is cancelled, the exchange
        isn't over: only `resync` or a new session goes on."""
        with self._alone():
            return answer_of(await self._rest(self._steps.exchange(command, self._now())), TurnKind.DONE)

    async def ask_ifs(self, size: int) -> None:
        """Tells the card the largest field that the terminal accepts, 1 to 254 octets."""
        with self._alone():
            answer_of(await self._rest(self._steps.ask_ifs(size, self._now())), TurnKind.IFS_SET)

    async def resync(self) -> None:
        """Begins anew with a card that can't be reset, or after a session that isn't over."""
        with self._alone():
            answer_of(await self._rest(self._steps.resync(self._now())), TurnKind.GIVEN_UP)


class AsyncCardSession(_OverStream):
    """A card's session over a line of asyncio. Begin it at a reset of the card."""

    _steps: CardSessionSteps

    def __init__(self, line: AsyncLine, setup: Setup, now: Callable[[], int] = clock) -> None:
        super().__init__(line, CardSessionSteps(setup), now)

    async def serve(self, host: Callable[[bytes, int], Awaitable[Said]]) -> None:
        """Serves the terminal until the host returns None, as CardSession.serve does."""
        with self._alone():
            step = await self._rest(self._steps.serve(self._now()))
            while answer_of(step, TurnKind.DONE) is not None:
                said = await host(step.octets, self._steps.granted)
                if said is None:
                    return
                step = await self._rest(host_step(self._steps, said, self._now()))
