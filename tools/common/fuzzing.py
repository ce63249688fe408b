"""The harnesses of tests/fuzz: how they are compiled, and their inputs as lines of hexadecimal digits."""

import pathlib
import shutil
import subprocess

TOP = pathlib.Path(__file__).resolve().parents[2]
FUZZ = TOP / "tests/fuzz"
CORPUS = FUZZ / "corpus"
HARNESSES = ("codecs", "forests", "ends", "sessions")
WARN = ["-std=c99", "-Wall", "-Wextra", "-pedantic", "-Werror", "-g"]
SANITIZE = ["-O1", "-fsanitize=address,undefined", "-fno-sanitize-recover=all"]


def compiler():
    """The compiler that is here, clang before another, or None."""
    return next((it for it in ("clang", "gcc", "cc") if shutil.which(it)), None)


def compiled(words, out):
    """Compiles files. Returns what the compiler said, or "" if it was content."""
    done = subprocess.run([*map(str, words), "-o", str(out)], check=False, stdout=subprocess.PIPE,
                          stderr=subprocess.STDOUT, text=True)
    return "" if done.returncode == 0 else done.stdout or "the compiler failed"


def sanitizers(folder):
    """The words for the sanitizers, if a program that is compiled with them runs here."""
    probe = folder / "probe.c"
    probe.write_text("int main(void) { return 0; }\n")
    if compiled([compiler(), *SANITIZE, probe], folder / "probe") == "" \
            and subprocess.run([str(folder / "probe")], check=False, stderr=subprocess.DEVNULL).returncode == 0:
        return SANITIZE
    return ["-O1"]


def lines_of(harness):
    """The inputs of a harness."""
    file = CORPUS / f"{harness}.txt"
    return file.read_text().split("\n")[:-1] if file.exists() else []
