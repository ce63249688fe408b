"""Random sessions of `simulate` and the program's output, for tools/gate/try-record and tools/gate/try-judge."""

import random
import subprocess

ATR = "3B808131204555"


def told(program, words, given=b""):
    """What the program writes, and its status."""
    ran = subprocess.run([program, *words], input=given, stdout=subprocess.PIPE, check=False)
    return ran.stdout, ran.returncode


def octets(least, most):
    """Random octets in hexadecimal: `least` to `most` of them."""
    return bytes(random.randrange(256) for _ in range(random.randint(least, most))).hex().upper()


def session():
    """The program's words for a random session."""
    words = ["simulate", ATR]
    words += ["--ifsd", str(random.randint(1, 254))] if random.random() < 0.3 else []
    words += [f"{octets(4, 300)}:{octets(2, 300)}" for _ in range(random.randint(1, 5))]
    numbers = random.sample(range(1, 120), random.randint(0, 12))
    for name, part in (("--lose", numbers[::3]), ("--damage", numbers[1::3]), ("--spoil", numbers[2::3])):
        words += [name, ",".join(map(str, part))] if part else []
    return words


def blocks(text):
    """The lines of blocks and of the ends of waiting times, each as its words."""
    return [line.split() for line in text.decode().splitlines() if line.split()[0] in ("t", "c", "quiet")]
