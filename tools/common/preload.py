"""Compiles a library of C that is preloaded into a program."""

import pathlib
import subprocess


def preloaded(source, folder):
    """Compiles a file of C as a library in a folder, and returns the library's path."""
    made = f"{folder}/{pathlib.Path(source).stem}.so"
    words = ["cc", "-shared", "-fPIC", "-Wall", "-Wextra", "-Werror", "-o", made, source, "-ldl"]
    subprocess.run(words, check=True)
    return made
