"""The samples of bench/samples, and the calls that read them."""
import io
import os
import pathlib
import sys

TOP = pathlib.Path(__file__).resolve().parents[2]
sys.path.insert(0, str(TOP / "bench"))
from scard_bench import apdu_log, ccid_log, imports, uart, uart_csv, usbmon
from scard_bench.errors import Wrong
from scard_bench.program import Program

FOLDER = TOP / "bench/samples"
PROGRAM = Program(os.environ.get("SCARD_OF_TESTS"))
RATE = 1_000_000
TRACES = {"ccid.log": "ccid-log", "usbmon.pcap": "usbmon", "usbmon.pcapng": "usbmon", "saleae-1.csv": "uart-csv",
          "saleae-2.csv": "uart-csv", "sigrok.txt": "uart-csv"}
PAIRS = ("pcscd-apdu.log", "opensc-tool.log", "opensc-debug.log", "pyscard.log", "scriptor.log", "gp.log", "arrows.log")
FORMATS = {**TRACES, **dict.fromkeys(PAIRS, "apdu-log")}
# what a log says about the number of its octets
COUNTED = ("opensc-debug.log", "gp.log")


def octets_of(name):
    """The octets of a sample."""
    return (FOLDER / name).read_bytes()


def imported(name, octets):
    """What the format of a sample makes of these octets: a trace or a list of pairs, checked."""
    kind = FORMATS[name]
    if kind == "usbmon":
        found = usbmon.traced(io.BytesIO(octets), None, False)
    else:
        file = io.StringIO(octets.decode("latin-1"), newline=None)
        if kind == "apdu-log":
            found = apdu_log.read(file)
        elif kind == "ccid-log":
            found = ccid_log.traced(file, None, False)
        else:
            found = uart.traced(uart_csv.read(file, RATE), PROGRAM, uart.Choices())
    found.check()
    return found


def judged(trace):
    """The last line that the judge prints about a trace."""
    found = imports.chosen(trace, imports.Wishes())
    return PROGRAM.answers(["judge", found.atr.hex()], found.text)[0].splitlines()[-1]


__all__ = ["COUNTED", "FOLDER", "FORMATS", "PAIRS", "PROGRAM", "TOP", "TRACES", "Wrong", "imported", "judged",
           "octets_of"]
