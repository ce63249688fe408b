"""scard from Python: answers to reset, commands, forests, and a terminal, over a shared library with ctypes.

    python3 over_ctypes.py atr 3B858131FE458073800140BC      (or: command 00A4040000, tlv 6F048402A000)

The library is libscard.so.1, or the file that SCARD_LIBRARY names. The example makes only calls that take no memory, so
that file may also be dist/c/scard.c as a shared library: cc -shared -fPIC -O2 -Idist/c dist/c/scard.c -o scard.so
"""
import ctypes
import os
import sys
from ctypes import POINTER, byref, c_char_p, c_size_t, c_uint8, c_uint16, c_uint32, c_uint64, c_void_p

OK, SHORT, AT, SEND, DONE = 0, 1, 2, 0, 1  # three statuses and two kinds of turns
ATR, COMMAND, TLV = 1, 4, 6  # the codecs, for the names of reasons
BLOCK_ROOM, LONGEST_COMMAND, LONGEST_ANSWER = 258, 65544, 65538
LONGEST_FOREST, VERSION = 1048576, 1000000


def struct(name, **fields):
    """Makes the class of a struct of scard.h, with its fields in their order."""
    return type(name, (ctypes.Structure,), {"_fields_": list(fields.items())})


Verdict = struct("Verdict", status=c_uint8, reason=c_uint8, place=c_size_t)
Text = struct("Text", text=c_char_p, size=c_size_t)
Turn = struct("Turn", kind=c_uint8, wait=c_uint8, count=c_size_t)
NUMBERS = ("number", "expected", "failures", "ifsc", "ifsd", "first_ifsc", "wait", "size", "is_answered")
SIZES = ("place", "most_command", "most_answer", "command_len", "answer_len")
State = struct("State", **dict.fromkeys(NUMBERS, c_uint8), **dict.fromkeys(SIZES, c_uint64))
T1 = struct("T1", ifsc=c_uint8, bwi=c_uint8, cwi=c_uint8)
Interface = struct("Interface", has_ta=c_uint8, ta=c_uint8, has_tb=c_uint8, tb=c_uint8, has_tc=c_uint8, tc=c_uint8)
Indicated = struct("Indicated", protocol=c_uint8, bytes=Interface)
Atr = struct("Atr", convention=c_uint8, first=Interface, indicated_count=c_uint8, indicated=Indicated * 31,
             historical_count=c_uint8, historical=c_uint8 * 15, has_tck=c_uint8, tck=c_uint8)
Command = struct("Command", cla=c_uint8, ins=c_uint8, p1=c_uint8, p2=c_uint8, shape=c_uint8, has_le=c_uint8,
                 le=c_uint32, data_place=c_size_t, data_len=c_size_t)
Tag = struct("Tag", octets=c_uint8 * 3, count=c_uint8)
Part = struct("Part", depth=c_uint8, is_constructed=c_uint8, len_octets=c_uint8, tag=Tag, place=c_size_t, len=c_size_t)

OCTETS, ROOM = (c_char_p, c_size_t), (c_void_p, c_size_t)
END = (POINTER(State), *ROOM, *ROOM)
CALLS = {
    "version": (c_uint32,),
    "reason_text": (None, c_uint8, c_uint8, POINTER(Text)),
    "turn_text": (None, c_uint8, POINTER(Text)),
    "atr_decode": (Verdict, *OCTETS, POINTER(Atr)),
    "atr_t1_params": (c_uint8, POINTER(Atr), POINTER(T1)),
    "t1_bwt": (c_uint64, POINTER(T1), c_uint16, c_uint16),
    "command_decode": (Verdict, *OCTETS, POINTER(Command)),
    "tlv_parts": (Verdict, *OCTETS, c_size_t, POINTER(Part), c_size_t),
    "lent_terminal_begin": (Verdict, *END, c_uint8, c_uint8, c_uint8),
    "lent_terminal_transmit": (Turn, *END, *OCTETS, *ROOM),
    "lent_terminal_received": (Turn, *END, *OCTETS, *ROOM),
    "lent_terminal_quiet": (Turn, *END, *ROOM),
    "lent_terminal_answer": (Verdict, *END),
}
lib = ctypes.CDLL(os.environ.get("SCARD_LIBRARY", "libscard.so.1"))
for call, (result, *arguments) in CALLS.items():
    getattr(lib, f"scard_{call}").restype, getattr(lib, f"scard_{call}").argtypes = result, arguments
if lib.scard_version() // 1000000 != VERSION // 1000000:
    raise ImportError("the version of the library begins with another number")


class Refused(ValueError):
    """Octets are invalid or too short, and the text has the place and the reason. Or an exchange ended without an
    answer, and the text has the turn."""


def name_of(call, *numbers):
    """Returns the name that a call of the library gives to numbers."""
    name = Text()
    call(*numbers, byref(name))
    return name.text.decode()


def checked(verdict, codec=0):
    """Returns the number of octets that a call read or wrote. Raises Refused for any other verdict."""
    if verdict.status == AT:
        raise Refused(f"refused at {verdict.place}: {name_of(lib.scard_reason_text, codec, verdict.reason)}")
    if verdict.status != OK:
        raise Refused(f"short at {verdict.place}" if verdict.status == SHORT else f"status {verdict.status}")
    return verdict.place


def atr(octets):
    """Decodes the answer to reset at the start of octets: its protocols, its historical bytes, and the parameters and
    BWT of T=1."""
    read, t1 = Atr(), T1()
    checked(lib.scard_atr_decode(octets, len(octets), byref(read)), ATR)
    said = {"protocols": [it.protocol for it in read.indicated[:read.indicated_count]],
            "historical": bytes(read.historical[:read.historical_count])}
    if lib.scard_atr_t1_params(byref(read), byref(t1)) == 0:
        said.update(ifsc=t1.ifsc, bwi=t1.bwi, cwi=t1.cwi, bwt_cycles=lib.scard_t1_bwt(byref(t1), 372, 1))
    return said


def command(octets):
    """Decodes a command: its header, its data field, and the number of octets expected in the response."""
    read = Command()
    checked(lib.scard_command_decode(octets, len(octets), byref(read)), COMMAND)
    end = read.data_place + read.data_len
    return {"header": octets[:4], "data": octets[read.data_place:end], "le": read.le if read.has_le else None}


def forest(octets):
    """Lists the objects of a forest, each before the objects inside it: its depth, its tag, and its value, or None if
    it is constructed."""
    parts = (Part * (len(octets) // 2 + 1))()
    count = checked(lib.scard_tlv_parts(octets, len(octets), LONGEST_FOREST, parts, len(parts)), TLV)
    return [(it.depth, bytes(it.tag.octets[:it.tag.count]),
             None if it.is_constructed else octets[it.place:it.place + it.len]) for it in parts[:count]]


class Terminal:
    """A terminal over a line. Create it at a reset of its card. `line.send(octets)` sends a block. `line.receive(wait)`
    returns all octets that come until the line is silent, even after a whole block, or b"" if none came within `wait`
    block waiting times."""

    def __init__(self, line, ifsc=32, bwi=4, cwi=13):
        self.line, self.block, self.parameters = line, ctypes.create_string_buffer(BLOCK_ROOM), (ifsc, bwi, cwi)
        self.answer = ctypes.create_string_buffer(LONGEST_ANSWER)
        self.end = (State(), ctypes.create_string_buffer(LONGEST_COMMAND), LONGEST_COMMAND, self.answer, LONGEST_ANSWER)
        self._begin()

    def _begin(self):
        checked(lib.scard_lent_terminal_begin(*self.end, *self.parameters))

    def _turn(self, call, *octets):
        return call(*self.end, *octets, self.block, BLOCK_ROOM)

    def exchange(self, octets):
        """Sends a command, and returns its answer. Raises Refused if there is no answer."""
        turn = self._turn(lib.scard_lent_terminal_transmit, octets, len(octets))
        while turn.kind == SEND:
            self.line.send(self.block.raw[:turn.count])
            came = self.line.receive(turn.wait)
            turn = (self._turn(lib.scard_lent_terminal_received, came, len(came)) if came
                    else self._turn(lib.scard_lent_terminal_quiet))
        if turn.kind != DONE:
            raise Refused(name_of(lib.scard_turn_text, turn.kind))
        return self.answer.raw[:checked(lib.scard_lent_terminal_answer(*self.end))]

    def close(self):
        """Overwrites the last command and the last answer: the library begins a session with empty buffers."""
        self._begin()


def main(words):
    """Checks octets, and prints what they are."""
    kinds = {"atr": atr, "command": command, "tlv": forest}
    if len(words) != 2 or words[0] not in kinds:
        sys.exit(__doc__)
    said = kinds[words[0]](bytes.fromhex(words[1]))
    for row in said.items() if isinstance(said, dict) else said:
        print(*(it.hex().upper() if isinstance(it, bytes) else it for it in row))


if __name__ == "__main__":
    main(sys.argv[1:])
