#!/usr/bin/python3
"""Shows what a client gets when processes end during a session, when a card is slow, and when two clients use it.
usage: troubles.py DIR PROGRAMS driver|twin    DIR is that of `readers start`, PROGRAMS has the card and twin
Prints rows: the trouble, what the client gets and when, and the result of the next session."""
import os
import signal
import subprocess
import sys
import threading
import time
from smartcard import scard
from client import Client, Told, echo, read

DIR, PROGRAMS, WAY = sys.argv[1:4]
WORD, OURS = ("scard", "card") if WAY == "driver" else ("Gem", "twin")
PLAN = os.path.join(DIR, OURS + ".plan")
HERE = os.path.dirname(os.path.abspath(__file__))
SOCKET = "/run/pcscd/pcscd.comm"
LONGEST = 30  # seconds


def late(tenths):
    """A command that the card answers after `tenths` tenths of a second."""
    return bytes([0x80, 0x10, tenths >> 8, tenths & 255])


def process_of(name):
    with open(os.path.join(DIR, name + ".pid")) as file:
        return int(file.read())


def is_there(process):
    """Whether a process runs. A zombie doesn't."""
    try:
        with open(f"/proc/{process}/stat") as file:
            return file.read().rpartition(")")[2].split()[0] != "Z"
    except OSError:
        return False


def end(name, number=signal.SIGKILL):
    process = process_of(name)
    if is_there(process):
        os.kill(process, number)
    while is_there(process):
        time.sleep(0.05)


def start(name, *words):
    """Starts a program again, as `readers start` did."""
    if name == "pcscd":
        words = ("pcscd", "--foreground", "--info", "-c", os.path.join(DIR, "readers"))
        if os.path.exists(SOCKET):  # pcscd takes the socket of a zombie for that of another pcscd
            os.remove(SOCKET)
    else:
        words = (os.path.join(PROGRAMS, name), os.path.join(DIR, name), *words)
    with open(os.path.join(DIR, name + ".log"), "a") as log:
        process = subprocess.Popen(words, stdout=log, stderr=log, start_new_session=True)
    with open(os.path.join(DIR, name + ".pid"), "w") as file:
        file.write(str(process.pid))
    time.sleep(1.5)


def renew(*words):
    """Restarts the card and, for `twin`, which is a reader too, pcscd: it doesn't look for a serial reader again."""
    end(OURS)
    if WAY == "twin":
        end("pcscd")
    start(OURS, *words)
    if WAY == "twin":
        start("pcscd")


def told(call, *arguments):
    """What a call returns, and after how many seconds. If it doesn't return within LONGEST, pcscd is restarted."""
    said = []

    def make():
        try:
            said.append("the answer" if call(*arguments) is not None else "done")
        except Told as fault:
            said.append(str(fault))
    began = time.monotonic()
    run = threading.Thread(target=make, daemon=True)
    run.start()
    run.join(LONGEST)
    seconds = time.monotonic() - began
    if said:
        return said[0], seconds
    end("pcscd")
    start("pcscd")
    run.join()
    return "nothing, until pcscd is killed", seconds


def next_session():
    """The result of a new client's session: right answers, or an error. It retries for some seconds."""
    for _ in range(20):
        try:
            client = Client(WORD, PLAN)
            client.reset()
            right = sum(client.transmit(command) == wanted for command, wanted in [read(0, 200), echo(b"\x01" * 600)])
            client.close()
            return "right" if right == 2 else "WRONG"
        except (Told, StopIteration) as fault:
            said = str(fault) or "no such reader"
            time.sleep(0.5)
    return said


def row(trouble, said, seconds, after):
    print(f"{trouble} | {said} | {seconds:.1f} s | {after}", flush=True)


def begun(plan=""):
    """A client that has begun a session. It waits for a card that was just put in."""
    client = Client(WORD, PLAN)
    for _ in range(20):
        try:
            client.reset(plan)
            return client
        except Told as fault:
            last = fault
            time.sleep(0.5)
    raise last


def card_process_ends():
    client = begun()
    threading.Timer(0.5, end, [OURS]).start()
    said, seconds = told(client.transmit, late(60))
    second, _ = told(client.transmit, read(0, 5)[0])
    client.close()
    renew()
    row("the card's process is killed in an exchange", f"{said}, then {second}", seconds, next_session())


def pcscd_restarted():
    client = begun()
    threading.Timer(0.5, end, ["pcscd", signal.SIGTERM]).start()
    said, seconds = told(client.transmit, late(10))
    time.sleep(1)
    second, _ = told(client.transmit, read(0, 5)[0])
    start("pcscd")
    row("pcscd is ended in one, and started", f"{said}, then {second}", seconds, next_session())


def client_killed():
    code = f"import client\nc = client.Client({WORD!r}, {PLAN!r})\nc.reset()\nc.transmit({late(20)!r})\n"
    process = subprocess.Popen([sys.executable, "-B", "-c", code], cwd=HERE)
    time.sleep(1)
    process.kill()
    process.wait()
    began = time.monotonic()
    after = next_session()
    row("a client is killed in one", "it is gone", time.monotonic() - began, after)


def two_clients():
    code = ("import client\nc = client.Client(%r)\nc.connect()\n"
            "pairs = [client.read(place, 200) for place in range(%d, %d)]\n"
            "print(sum(c.transmit(command) == wanted for command, wanted in pairs))\n")
    first = begun()
    run = [subprocess.Popen([sys.executable, "-B", "-c", code % (WORD, at, at + 500)], cwd=HERE, stdout=subprocess.PIPE)
           for at in (0, 1000)]
    began = time.monotonic()
    right = [int(process.communicate()[0]) for process in run]
    first.close()
    row("two clients, 500 exchanges each", f"{sum(right):,} of 1,000 right", time.monotonic() - began,
        next_session())


def exclusive():
    first = begun()
    second = Client(WORD, PLAN, scard.SCARD_SHARE_EXCLUSIVE)
    said, seconds = told(second.connect)
    second.close()
    first.close()
    row("a second client wants the card alone", said, seconds, next_session())


def asks_for_time():
    renew("time=3")
    client = begun()
    pairs = [read(place, 300) for place in range(200)]
    began = time.monotonic()
    right = sum(client.transmit(command) == wanted for command, wanted in pairs)
    seconds = time.monotonic() - began
    client.close()
    row("a WTX of 3 before each answer", f"{right} of 200 right", seconds, next_session())
    renew()


def late_answer():
    client = begun()
    said, seconds = told(client.transmit, late(30))
    client.close()
    row("an answer after 3 s, no WTX", said, seconds, next_session())


def no_answer():
    client = begun()
    said, seconds = told(client.transmit, late(1000))
    second, later = told(client.reset)
    client.close()
    renew()
    row("the card never answers", f"{said}; a reset: {second} after {later:.1f} s", seconds, next_session())


def lost_in_time():
    client = begun("lose=4 clock=real")
    said, seconds = told(client.transmit, read(0, 5)[0])
    client.close()
    row("a lost block costs its waiting time", said, seconds, next_session())


troubles = [card_process_ends, pcscd_restarted, client_killed, two_clients, exclusive, asks_for_time, late_answer,
            no_answer]
if WAY == "driver":
    troubles.append(lost_in_time)
for trouble in troubles:
    if len(sys.argv) < 5 or trouble.__name__ in sys.argv[4:]:
        try:
            trouble()
        except Told as fault:
            row(trouble.__name__, f"not tried: {fault}", 0, next_session())
