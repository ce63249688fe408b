"""Runs the program through the package: all vectors, from several threads too, words that aren't UTF-8, and wrong
arguments. Under the sanitizers of a compiler it runs every so many of the vectors."""
import concurrent.futures
import os
import pathlib
import resource
import sys
import threading
import unittest

import scard

TOP = pathlib.Path(__file__).resolve().parents[2]
sys.path.append(str(TOP / "tools/common"))
from cases import case_of, lines_of

LEAST, EACH = 12_000, int(os.environ.get("SCARD_EACH", "1"))
THREADS, BLOCK = 4, ["check", "block", "00000500A4040000A5"]
# more text than the program writes at once
MANY = "3B00\n" * 20_000
ANSWERS = "ok 2 octets\n" * 20_000


def cases():
    """All cases, each with its place."""
    for file in sorted((TOP / "vectors").iterdir()):
        for number, line in lines_of(file):
            yield f"{file.name}: line {number}", case_of(line)


def answered(case):
    """What the program answers to a case."""
    made = scard.answer(case.words, case.given)
    return made.status, made.octets


def size_of_memory():
    """The octets of addresses that this process has, by the system."""
    return int(pathlib.Path("/proc/self/statm").read_text().split()[0]) * resource.getpagesize()


class Vectors(unittest.TestCase):
    def test_all(self):
        chosen = list(cases())[::EACH]
        differ = [where for where, case in chosen if answered(case) != (case.status, case.text)]
        self.assertEqual(differ, [])
        self.assertGreaterEqual(len(chosen), LEAST // EACH)

    def test_threads_do_not_disturb_one_another(self):
        """Each thread begins elsewhere, so different cases run at the same time."""
        chosen = list(cases())[::max(EACH, 10)]

        def differ(number):
            begin = number * len(chosen) // THREADS
            turned = chosen[begin:] + chosen[:begin]
            return [where for where, case in turned if answered(case) != (case.status, case.text)]

        with concurrent.futures.ThreadPoolExecutor(THREADS) as pool:
            self.assertEqual(list(pool.map(differ, range(THREADS))), [[]] * THREADS)


class Words(unittest.TestCase):
    def test_octets_and_texts(self):
        for words in (BLOCK, [it.encode() for it in BLOCK], tuple(map(bytearray, map(str.encode, BLOCK))), iter(BLOCK)):
            self.assertEqual(scard.answer(words), scard.Answer(0, b"ok 9 octets\n"))
        lines = ["check", "--stdin", "lines", "atr"]
        self.assertEqual(scard.answer(lines, memoryview(b"3B00\n")).text, "ok 2 octets\n")

    def test_words_that_are_not_utf_8(self):
        """As octets, and as the text that Python makes of such words of a shell."""
        for word in (b"\xff", b"check\xc3"):
            self.assertEqual(scard.answer([word]), scard.Answer(2, b"fault: words\n"))
            self.assertEqual(scard.answer([os.fsdecode(word)]), scard.Answer(2, b"fault: words\n"))

    def test_no_words_and_empty_words(self):
        self.assertEqual(scard.answer([]).status, 2)
        self.assertEqual(scard.answer([""]).status, 2)
        self.assertEqual(scard.answer(["check", "block", ""]).text, "short at 0\n")

    def test_wrong_arguments(self):
        for words in ("check", b"check", bytearray(b"check"), 5, None, [5], [None], [["check"]]):
            self.assertRaises(TypeError, scard.answer, words)
        for given in (5, None, ["3B00"], 1.5):
            self.assertRaises(TypeError, scard.answer, BLOCK, given)
        for word in ("a\0b", b"\0", b"check\0"):
            self.assertRaises(scard.Argument, scard.answer, [word])
        self.assertRaises(UnicodeEncodeError, scard.answer, ["\ud800"])

    def test_an_answer_is_a_value(self):
        made = scard.answer(BLOCK)
        self.assertEqual((made, hash(made)), (scard.answer(BLOCK), hash(scard.answer(BLOCK))))
        self.assertRaises(AttributeError, setattr, made, "status", 1)


class Memory(unittest.TestCase):
    def test_input_and_text_of_any_length(self):
        self.assertEqual(scard.answer(["check", "--stdin", "lines", "atr"], MANY), scard.Answer(0, ANSWERS.encode()))

    @unittest.skipUnless(sys.platform == "linux", "the size of a process is read from /proc")
    def test_each_memory_is_freed(self):
        scard.answer(["show", "--stdin", "lines", "atr"], MANY)
        before = size_of_memory()
        for _ in range(50):
            scard.answer(BLOCK)
        self.assertLess(size_of_memory() - before, 1 << 30)

    def test_other_threads_run_meanwhile(self):
        """This thread counts while another one waits for an answer that takes long."""
        thread = threading.Thread(target=scard.answer, args=(["show", "--stdin", "lines", "atr"], MANY * 10))
        thread.start()
        count = 0
        while thread.is_alive():
            count += 1
        self.assertGreater(count, 1000)


if __name__ == "__main__":
    unittest.main(verbosity=0)
