"""The devices of the suite, for its tests."""
import atexit
import functools
import importlib.util
import subprocess
import sys
import tempfile

from samples import PROGRAM, TOP
from scard_bench.suite import runner, scenario
from scard_bench.suite.device import Device

WRONG = TOP / "tests/bench/wrong"
LIMIT = 20.0


def load(name, path):
    """A module by its file."""
    spec = importlib.util.spec_from_file_location(name, path)
    module = importlib.util.module_from_spec(spec)
    spec.loader.exec_module(module)
    return module


sys.path.insert(0, str(WRONG))
tried = load("tried", WRONG / "try.py")


def run(role, command, profile="iso", only=None, limit=LIMIT, has_all=False):
    """A run of the suite with a device, which lacks what ours lack, or nothing."""
    found = [it for it in scenario.scenarios(role, profile) if only is None or it.identity in only]
    declared = scenario.declaration(str(WRONG / "plain.json" if has_all else TOP / f"bench/devices/{role}.json"))
    done = runner.results(PROGRAM, Device(list(command), limit), found, declared)
    return runner.Run(role, profile, list(command), done)


@functools.lru_cache(None)
def in_c():
    """The folder with our devices in C, which are built once."""
    work = tempfile.TemporaryDirectory()
    atexit.register(work.cleanup)
    subprocess.run([TOP / "bench/devices/make", work.name], check=True)
    return work.name


def plain(role):
    """The command of a plain device."""
    return [sys.executable, "-B", str(WRONG / f"plain_{role}.py")]


def verdicts(run_of_it, *names):
    """The scenarios with one of these verdicts, with the reasons."""
    return [(it.scenario.identity, it.reasons) for it in run_of_it.results if it.verdict in names]


__all__ = ["Device", "LIMIT", "in_c", "load", "plain", "run", "tried", "verdicts"]
