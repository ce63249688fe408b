"""Two cards in one loop of asyncio, each with its terminal over a pair of sockets.

    python3 two_cards.py 3

Each terminal sends that many commands, one after another. The program prints how many answers were right.
"""
import asyncio
import socket
import sys

import scard

# sockets deliver whole bursts at once, and a busy machine delays them: long waiting times leave room for that
SETUP = scard.Setup(scard.T1(ifsc=32, bwi=7, cwi=13), hertz=30_000_000, silence=scard.FOREVER)


async def lines():
    """The two ends of a pair of sockets as lines."""
    return [scard.StreamLine(*await asyncio.open_connection(sock=end)) for end in socket.socketpair()]


async def host(command, granted):
    """The application of a card: it asks for time once, works, and replies."""
    if not granted:
        return scard.MoreTime(2)
    await asyncio.sleep(0.001)
    return command + b"\x90\x00"


async def exchanges(name, count):
    """Sends commands to a card, and returns how many answers were right."""
    mine, yours = await lines()
    card = asyncio.ensure_future(scard.AsyncCardSession(yours, SETUP).serve(host))
    right = 0
    async with scard.AsyncSession(mine, SETUP) as session:
        for number in range(count):
            command = bytes([0, 0xA4, 4, 0, 2, name, number])
            right += await session.exchange(command) == command + b"\x90\x00"
    card.cancel()
    await asyncio.wait({card})
    mine.close()
    yours.close()
    return right


async def both(count):
    """Both cards at the same time."""
    return sum(await asyncio.gather(exchanges(1, count), exchanges(2, count)))


def main(words):
    if len(words) != 1:
        sys.exit(__doc__)
    print(f"{2 * int(words[0])} exchanges, {asyncio.run(both(int(words[0])))} right")
    return 0


if __name__ == "__main__":
    sys.exit(main(sys.argv[1:]))
