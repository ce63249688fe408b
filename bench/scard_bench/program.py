"""The program `scard`, which decides."""
from __future__ import annotations

import os
import pathlib
import shutil
import subprocess
import sys
from typing import List, Optional, Sequence, Tuple

from .errors import Wrong

# the program of a checkout, and the one that is installed beside the command
CHECKOUT = pathlib.Path(__file__).resolve().parents[2] / "scard"
INSTALLED = pathlib.Path(sys.argv[0]).absolute().parent / "scard"
STATUSES = (0, 1, 2)
# how many values one call checks
AT_ONCE = 20_000


def found() -> Optional[str]:
    """The program of this checkout, beside the command, or on the PATH."""
    beside = (str(it) for it in (CHECKOUT, INSTALLED) if it.is_file() and os.access(it, os.X_OK))
    return next(beside, None) or shutil.which("scard")


class Program:
    """The program at a path, or the one that is found."""

    def __init__(self, path: Optional[str] = None) -> None:
        self.path = path or found() or ""
        if not self.path:
            raise Wrong("there is no program scard beside this command or on the PATH: name it by --scard")

    def answers(self, words: Sequence[str], text: str = "") -> Tuple[str, int]:
        """What the program prints for words and standard input, and its status."""
        try:
            ran = subprocess.run([self.path, *words], input=text.encode(), stdout=subprocess.PIPE, check=False)
        except OSError as error:
            raise Wrong(f"{self.path}: {error.strerror}") from error
        if ran.returncode not in STATUSES:
            raise Wrong(f"{self.path} ended with status {ran.returncode}")
        return ran.stdout.decode(), ran.returncode

    def checked(self, kind: str, values: Sequence[bytes]) -> List[str]:
        """The line that `scard check KIND` prints for each value."""
        pieces = (values[at:at + AT_ONCE] for at in range(0, len(values), AT_ONCE))
        return [line for piece in pieces for line in self.lines(kind, piece)]

    def lines(self, kind: str, values: Sequence[bytes]) -> List[str]:
        """The same for some values, by one call."""
        text = "".join(f"{value.hex()}\n" for value in values)
        lines = self.answers(["check", kind, "--stdin", "lines"], text)[0].splitlines()
        if len(lines) != len(values):
            raise Wrong(f"{self.path} answered {len(lines)} of {len(values)} lines")
        return lines

    def whole(self, kind: str, values: Sequence[bytes]) -> List[int]:
        """How many octets of each value the program takes as one value of this kind, 0 if it takes none."""
        words = [line.split() for line in self.checked(kind, values)]
        return [int(it[1]) if it[:1] == ["ok"] else 0 for it in words]
