#!/usr/bin/python3
"""Tries the clients of this folder and those of Debian through each reader of examples/pcsc, and prints the results as
tables in Markdown. tools/pcsc/run calls it.
usage: tables.py PROGRAMS DIR SCARD    where examples/pcsc was built, a folder to run in, and the program, or none"""
import datetime
import glob
import os
import re
import subprocess
import sys

PROGRAMS, DIR, SCARD = sys.argv[1:4]
HERE = os.path.dirname(os.path.abspath(__file__))
VALGRIND = f"valgrind --quiet --leak-check=full --errors-for-leak-kinds=definite --log-file={DIR}/valgrind.%p"
PACKAGES = ("pcscd", "libccid", "pcsc-tools", "opensc", "python3-pyscard")


class Way:
    """A reader: its title, the words by which `readers` starts it, a word of its name, and its card's process."""

    def __init__(self, title, words, word, process):
        self.title, self.words, self.word = title, words, word
        self.plan = os.path.join(DIR, process + ".plan")
        self.record = os.path.join(DIR, title.split()[-1])

    def start(self, under=""):
        words = [f"{PROGRAMS}/readers", "start", DIR, *self.words]
        subprocess.run(words, check=True, env={**os.environ, "UNDER": under})


WAYS = [Way("our terminal", ["driver"], "scard", "card"),
        Way("libccid, parity", ["twin", "lost=parity"], "Gem", "twin"),
        Way("libccid, mute", ["twin"], "Gem", "twin")]


def stop():
    subprocess.run([f"{PROGRAMS}/readers", "stop", DIR], check=True)


def said(*words, text=None):
    """The output of a command, on both of its streams."""
    return subprocess.run(words, input=text, text=True, stdout=subprocess.PIPE, stderr=subprocess.STDOUT).stdout


def client(script, way, *words):
    lines = said("/usr/bin/python3", "-B", f"{HERE}/{script}.py", way.word, way.plan, *words).splitlines()
    return lines[-1] if lines else "nothing"


# ---- what is tried through each way: the words of a cell ----

def debian(way):
    """Debian's clients: they list the reader, show the card, and send it a command."""
    select = "00 A4 04 00 07 F0 53 43 41 52 44 01 00"
    opensc = ("opensc-tool", "--card-driver", "default", "--reader", "0")
    wanted = {
        "pcsc_scan -r": way.word in said("pcsc_scan", "-r"),
        "pcsc_scan": "3B 85 81 31" in said("pcsc_scan", "-c", "-n"),
        "opensc-tool --atr": "3b:85:81:31" in said(*opensc, "--atr"),
        "opensc-tool --send-apdu": "SW1=0x90" in said(*opensc, "--send-apdu", select.replace(" ", ":")),
        "scriptor": "90 00" in said("scriptor", "-p", "T=1", text=f"reset\n{select}\n"),
    }
    wrong = [name for name, is_right in wanted.items() if not is_right]
    return "answered" if not wrong else "not answered: " + ", ".join(wrong)


def exchanges(rate):
    def cell(way):
        counts, _, speed = client("exchanges", way, "1000", str(rate)).partition(": ")[2].partition("; ")
        counts = re.sub(r" \([A-Z_, ]+\)", "", counts)
        return counts if rate > 0 else f"{counts}, {speed}"
    return cell


def sweep(kind):
    return lambda way: client("sweep", way, kind).partition(": ")[2]


def sessions(way):
    return client("sessions", way, "100", way.record).partition(", ")[2]


def replayed(end):
    def cell(way):
        if SCARD == "none":
            return "not tried"
        return said(f"{HERE}/replays", SCARD, end, *sorted(glob.glob(way.record + ".*"))).strip()
    return cell


def judged(way):
    if SCARD == "none":
        return "not tried"
    return said(f"{HERE}/judged", SCARD, *sorted(glob.glob(way.record + ".*"))).strip()


def descriptors():
    """How many descriptors our processes have open."""
    count = 0
    for file in glob.glob(f"{DIR}/*.pid"):
        with open(file) as text:
            count += len(os.listdir(f"/proc/{text.read().strip()}/fd"))
    return count


def leaks(way):
    """What valgrind reports for our processes, and for pcscd with our driver, over 1,000 exchanges."""
    stop()
    way.start(VALGRIND)
    line = client("exchanges", way, "1000", "2", "3000")
    stop()
    logs = glob.glob(f"{DIR}/valgrind.*")
    complaints = 0
    for name in logs:
        with open(name) as file:
            complaints += len(re.findall(r"definitely lost in|Invalid|uninitialised", file.read()))
        os.remove(name)
    way.start()
    counts = line.partition(": ")[2].partition(";")[0]
    return f"{complaints} complaints, " + re.sub(r" \([A-Z_, ]+\)", "", counts)


ROWS = [("`pcsc_scan`, `opensc-tool`, `scriptor`", debian)]
ROWS += [(f"1,000 exchanges, {rate} %", exchanges(rate)) for rate in (0, 1, 5, 20, 50)]
ROWS += [("each single block, 108 plans", sweep("singles")),
         ("each two near blocks, 630 plans", sweep("pairs")),
         ("100 sessions, recorded", sessions),
         ("recordings as our card does", replayed("card")),
         ("recordings as our terminal does", replayed("terminal")),
         ("deviations from T=1 in the recordings", judged),
         ("1,000 exchanges, 2 %, valgrind", leaks)]


def tried(way):
    """The cells of a way, in the order of the rows, and the descriptors."""
    way.start()
    client("exchanges", way, "10", "0")
    before = descriptors()
    cells = [row(way) for _, row in ROWS[:-1]]
    cells.append(f"{before}, then {descriptors()}")
    cells.append(ROWS[-1][1](way))
    stop()
    return cells


def troubles(way):
    """Each trouble with what the client gets through a way. Codes are without their SCARD_."""
    way.start()
    lines = said("/usr/bin/python3", "-B", f"{HERE}/troubles.py", DIR, PROGRAMS, way.words[0]).splitlines()
    stop()
    return dict(line.replace("SCARD_", "").split(" | ", 1) for line in lines if " | " in line)


def demonstration(way):
    """The lines of tail.py, and what our terminal would have done."""
    way.start()
    record = os.path.join(DIR, "tail")
    lines = said("/usr/bin/python3", "-B", f"{HERE}/tail.py", way.word, way.plan, record).strip()
    stop()
    if SCARD == "none":
        return lines
    return lines + "\n" + said(f"{HERE}/replays", SCARD, "terminal", record + ".1").strip()


def table(heads, rows):
    print(f"| {' | '.join(heads)} |\n|{'---|' * len(heads)}")
    for row in rows:
        print(f"| {' | '.join(row)} |")
    print(flush=True)


def main():
    versions = [f"{name} {said('dpkg-query', '-W', '-f', '${Version}', name)}" for name in PACKAGES]
    print(f"{datetime.date.today()}, {os.cpu_count()} processors. " + ", ".join(versions) + ".\n")
    titles = [title for title, _ in ROWS[:-1]] + ["descriptors open before and after", ROWS[-1][0]]
    columns = [tried(way) for way in WAYS]
    table(["", *(way.title for way in WAYS)], [[title, *cells] for title, *cells in zip(titles, *columns)])
    ours, theirs = troubles(WAYS[0]), troubles(WAYS[1])
    table(["Trouble", WAYS[0].title, WAYS[1].title], [[name, *(told.get(name, "not tried").replace(" | ", "; ")
                                                           for told in (ours, theirs))] for name in ours])
    for way in WAYS[:2]:
        print(f"{way.title}:\n\n{demonstration(way)}\n", flush=True)


main()
