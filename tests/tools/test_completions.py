#!/usr/bin/env python3
"""Tests the completions for zsh and fish, as tools/release/completions puts them in place: they have to give the words
that the completion for bash gives for each row of tools/gate/check-pages, and for the bench those of a table here. A
shell that is missing is left out."""

import pathlib
import re
import shlex
import shutil
import subprocess
import tempfile
import unittest

TOP = pathlib.Path(__file__).resolve().parents[2]
ROW = re.compile(r"^    completes (.*)$", re.M)
# compadd and _files are zsh's own; here they print
ZSH = """fpath=($1/zsh/site-functions $fpath)
autoload -Uz _$2
compadd() { print -rl -- ${(P)2} }
_files() { :; }
name=$2
shift 2
words=("$@") CURRENT=$#
_$name
"""
CAPTURE = "--session --reader --times --plain --rate --terminal --card --pause --waiting"
FORMATS = "ccid-log usbmon uart-csv apdu-log"
FILES = "--junit --json --html"
# the words of the bench, each row with what has to come
BENCH = (
    ("import report suite --scard --help", ""), ("report", "rep"), (f"{CAPTURE} --atr --help {FORMATS}", "import "),
    ("usbmon uart-csv", "import u"), (f"{CAPTURE} --answer {FILES} --help", "report ccid-log a.log "),
    (f"--role --profile --device --serial --baud --clock --tolerance --declare --limit --only --list --topics {FILES} "
     "--help", "suite "), ("card terminal", "suite --role "),
    ("iso emv", "suite --role card --profile "), ("", "suite --role card --declare "), ("--profile", "suite --p"),
    ("", "suite --role card -- "), ("usbmon", "--scard ./scard report usb"), ("--times --terminal", "import --t"),
    (f"{CAPTURE} --atr --help {FORMATS}", "import --session 2 "), ("", "import --rate "),
)


def rows(name):
    """The words that bash completes, each with what it has to give. An equals sign as a word is bash's own."""
    if name == "scard-bench":
        yield from ((wanted.split(), [name, *words.split(" ")]) for wanted, words in BENCH)
        return
    for line in ROW.findall((TOP / "tools/gate/check-pages").read_text()):
        wanted, *words = shlex.split(line)
        if "=" not in words:
            yield wanted.split(), words


class Completions(unittest.TestCase):
    name = "scard"

    def setUp(self):
        work = tempfile.TemporaryDirectory()
        self.addCleanup(work.cleanup)
        self.share, self.empty = pathlib.Path(work.name) / "share", pathlib.Path(work.name) / "empty"
        self.empty.mkdir()
        named = [self.name] if self.name != "scard" else []
        subprocess.run([TOP / "tools/release/completions", self.share, "zsh/site-functions", *named], check=True)

    def printed(self, *words):
        """The lines that a command prints, without the remarks after a tab."""
        done = subprocess.run([*map(str, words)], check=True, cwd=self.empty, stdout=subprocess.PIPE, text=True,
                              env={"PATH": "/usr/bin:/bin", "HOME": str(self.empty)})
        return sorted(it.split("\t")[0] for it in done.stdout.splitlines() if it)

    def each_row(self, completed):
        tried = 0
        for wanted, words in rows(self.name):
            with self.subTest(words):
                self.assertEqual(completed(words), sorted(wanted))
            tried += 1
        self.assertGreater(tried, 14)

    @unittest.skipUnless(shutil.which("bash"), "there is no command bash")
    def test_bash(self):
        file = self.share / "bash-completion/completions" / self.name
        self.each_row(lambda words: self.printed("bash", file, *words))

    @unittest.skipUnless(shutil.which("bash") and shutil.which("zsh"), "there is no command zsh")
    def test_zsh(self):
        self.each_row(lambda words: self.printed("zsh", "-f", "-c", ZSH, "zsh", self.share, self.name, *words))

    @unittest.skipUnless(shutil.which("bash") and shutil.which("fish"), "there is no command fish")
    def test_fish(self):
        file = shlex.quote(f"{self.share}/fish/vendor_completions.d/{self.name}.fish")
        loads = f"source {file}; complete -C $argv[1]"
        self.each_row(lambda words: self.printed("fish", "--no-config", "-c", loads, shlex.join(words[:-1]) + " " + words[-1]))


class BenchCompletions(Completions):
    name = "scard-bench"


if __name__ == "__main__":
    unittest.main()
