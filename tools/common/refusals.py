"""Decides from the checker's lines whether an edit is refused: a goal of the function that it is in isn't proved. If
not, it says why the edit shows nothing."""

import collections
import re

# An error in a text of src/ or specs/ itself, with the goal that it is about, if any.
ON_TEXT = re.compile(r"(?:\./)?(?:src|specs)/\S+?:\d+:\d+: error: (?:(`[^`]*`): )?(.*)")
# The errors there for a text that the checker couldn't read.
UNREAD = re.compile(r"is not in scope|has no field|is no name|operand is missing|expected the end|cannot continue")
# The errors for an answer or a lemma that names what no longer exists, and for those that cite it.
GONE = re.compile(r"has no field|has no `|is not in scope|is no name|not admitted")
# The last line of a check of some functions: how many they are, and how many of them are proved.
ONLY = re.compile(r"only=(\d+) proved=(\d+)$")

Verdict = collections.namedtuple("Verdict", "is_refused said")


def path_of(function):
    """A function's path below its crate, as the checker prints it."""
    module = function.file.removeprefix("src/").removesuffix(".rt").removeprefix("lib")
    return [it for it in (*module.split("/"), function.owner, function.name) if it]


def only_name(function):
    """A function's name for --only. In an impl it is the end of the path, since the checker names it by the file of its
    type."""
    path = path_of(function)
    return "::".join(path[-2:] if function.owner else path)


def is_unread(line):
    """Whether the checker says that it couldn't read a text, so that the edit in it would show nothing."""
    at = ON_TEXT.match(line)
    return bool(at) and (not at[1] or bool(UNREAD.search(re.sub("`[^`]*`", "", at[2]))))


def is_ended(lines):
    """Whether the check came to its end, by its last line."""
    return bool(lines) and bool(ONLY.match(lines[-1]) or re.match(r"logic=(not-)?proved", lines[-1]))


def is_proved(lines):
    """Whether the checker proved the crate, or all functions that it was asked for."""
    only = ONLY.match(lines[-1]) if lines else None
    return only[1] == only[2] if only else bool(lines) and lines[-1].startswith("logic=proved")


def joined(lines):
    """The lines, with each line that begins with two spaces joined to the one that it continues."""
    found = []
    for line in lines:
        if found and line.startswith("  "):
            found[-1] += line
        else:
            found.append(line)
    return found


def folder_of_answers(function):
    """A pattern for the folder with a function's answers, or with those of any function if it is None. A function that
    calls itself has a plus sign before its name."""
    if not function:
        return r"(?:\./)?proofs/(?:\+?\w+/)*"
    above = r"(?:\w+/)*" if function.owner else ""
    return rf"(?:\./)?proofs/{above}\+?{'/[+]?'.join(map(re.escape, only_name(function).split('::')))}/"


def answers_on(function, lines):
    """The lines in which the checker refuses an answer of this function."""
    form = re.compile(folder_of_answers(function) + r"\w+\.antt:\d+:\d+: error")
    return [it for it in lines if form.match(it)]


def goals_on(function, lines):
    """The lines in which the checker names a goal of this function that has no answer and that its search didn't
    prove."""
    searched = re.compile(rf"fn \S+: no proof: .*{folder_of_answers(function)}.* `search` did not prove")
    place = re.compile(r"(?:note: )?(?:\./)?(src/\S+?):(\d+):\d+: (?:error|it is not proved)")
    for line in lines:
        at = place.match(line)
        is_there = at and (not function or at[1] == function.file and function.first < int(at[2]) <= function.last + 1)
        if is_there or searched.match(line):
            yield line


def verdict_on(functions, lines):
    """What a check shows about an edit in these functions. An answer that doesn't prove its goal refuses the edit. So
    does a goal without an answer that the search doesn't prove. If an answer names what no longer exists, a goal
    without an answer may be that answer's goal under another name: then it shows nothing."""
    if not is_ended(lines):
        return Verdict(False, f"BAD EDIT: it did not reach the prover: {' '.join(lines[:6])}")
    unread = next(filter(is_unread, lines), "")
    if unread:
        return Verdict(False, f"BAD EDIT: the checker can't read the edited text: {unread}")
    if is_proved(lines):
        return Verdict(False, "NOT REFUSED: it is still proved")
    answers = [line for it in functions for line in answers_on(it, joined(lines))]
    gone = [it for it in answers if GONE.search(it)]
    goals = [line for it in functions for line in goals_on(it, lines)] if not gone else []
    told = next((it for it in [*answers, *goals] if it not in gone), "")
    if not told and gone:
        return Verdict(False, f"BAD EDIT: an answer names what is gone; change a value and keep the names: {gone[0]}")
    return Verdict(bool(told), told or "NOT REFUSED: no goal of its function is named as not proved")
