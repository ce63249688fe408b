#!/usr/bin/env python3
"""Tries the wrong devices with the suite, and prints which scenarios fail each.

usage: tests/bench/wrong/try.py [--all|--write] card|terminal [WORD..]

A WORD chooses the devices whose name has it. Without --all the scenarios of a device end at the first that fails. With
--write that one goes into failed_by.json beside this file. The variable SCARD_OF_TESTS may name the built program. The
status is 1 if a device passes.
"""
import json
import os
import pathlib
import sys
import tempfile

sys.dont_write_bytecode = True
HERE = pathlib.Path(__file__).resolve().parent
sys.path[:0] = [str(HERE), str(HERE.parents[2] / "bench")]
from changes import CARDS, TERMINALS
from scard_bench.program import Program
from scard_bench.suite import runner, scenario
from scard_bench.suite.device import Device
from scard_bench.suite.verdict import FAIL

CHANGES = {"card": CARDS, "terminal": TERMINALS}
# the plain devices lack nothing
DECLARED = HERE / "plain.json"
LIMIT = 3.0


def changed(role, name):
    """The text of a device with one line changed."""
    text = (HERE / f"plain_{role}.py").read_text()
    old, new = CHANGES[role][name]
    if text.count(old) != 1:
        raise ValueError(f"{role}, {name}: the old line is {text.count(old)} times in the device")
    return text.replace(old, new)


def repeats(text):
    """A card with the method that one of the changes needs: it acts on its last command again."""
    return text.replace('''    def refuses(self, error):''', '''    def repeats(self):
        """The last block, after the command was acted on again."""
        self.application.served += 1
        return self.last

    def refuses(self, error):''')


def failed(program, role, name, found, is_first=True):
    """The scenarios that fail a wrong device."""
    with tempfile.NamedTemporaryFile("w", suffix=".py") as file:
        file.write(repeats(changed(role, name)) if role == "card" else changed(role, name))
        file.flush()
        device = Device([sys.executable, "-B", file.name], LIMIT)
        done = runner.results(program, device, found, scenario.declaration(str(DECLARED)), is_first=is_first)
    return [it for it in done if it.verdict == FAIL]


def writes(role, name, identity):
    """Writes which scenario fails a device."""
    file = HERE / "failed_by.json"
    found = json.loads(file.read_text()) if file.exists() else {it: {} for it in CHANGES}
    found[role][name] = identity
    in_order = {it: {one: found[it][one] for one in CHANGES[it] if one in found[it]} for it in CHANGES}
    file.write_text(json.dumps(in_order, indent=1) + "\n")


def main(words):
    options, words = set(words) & {"--all", "--write"}, [it for it in words if it not in ("--all", "--write")]
    if not words or words[0] not in CHANGES:
        sys.exit(__doc__)
    role, program, passed = words[0], Program(os.environ.get("SCARD_OF_TESTS")), 0
    found = scenario.scenarios(role, "iso")
    for name in CHANGES[role]:
        if any(it not in name for it in words[1:]):
            continue
        fails = failed(program, role, name, found, "--all" not in options)
        passed += not fails
        if fails and "--write" in options:
            writes(role, name, fails[0].scenario.identity)
        why = f"{fails[0].scenario.identity}: {fails[0].reasons[0]}" if fails else "PASSES"
        print(f"{name:50} {len(fails):3} {why[:150]}", flush=True)
    print(f"{role}: {len(CHANGES[role])} wrong devices, {passed} passed")
    return 1 if passed else 0


if __name__ == "__main__":
    sys.exit(main(sys.argv[1:]))
