"""The module of C that runs the program."""
from typing import Tuple

def answer(words: bytes, input: bytes, /) -> Tuple[int, bytes]: ...
