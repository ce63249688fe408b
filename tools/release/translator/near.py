"""Finds the accesses of a function that can be held to their window together.

In a straight run of instructions, which no jump leaves or enters, all accesses are made or none. So accesses whose
addresses differ only by a number are held to their window once, before the first, from the lowest of their octets to
the last. That refuses exactly what holding each access by itself refuses, since a window is in one piece. The result
holds until a variable of the address changes, on each path from there.

A function is followed twice: first to see which accesses each run has, and then to write them.
"""

import collections
import dataclasses

from loops import ALL


# accesses over more octets than this aren't held together
MOST = 1 << 31


@dataclasses.dataclass(frozen=True)
class Held:
    """Octets that are held to their window: the variables whose sum, with a number, is their address; the numbers of the
    first and of the one after the last; and the name of the place in C."""

    key: tuple
    first: int
    end: int
    name: str

    def mentions(self, variable):
        return any(name == variable for name, _ in self.key)


def signed(number):
    return number - ALL if number >> 63 else number


class Near:
    """What is known at the writer's place about the octets that a function reaches; and what each run accesses."""

    def __init__(self, plan=None):
        self.plan, self.groups = plan or {}, {}
        self.run, self.known, self.changes = 0, frozenset(), collections.Counter()

    def ended(self):
        """Ends a run."""
        self.run += 1

    def changed(self, variable):
        """Notes that a variable changes."""
        self.changes[variable] += 1
        self.known = frozenset(it for it in self.known if not it.mentions(variable))

    def accessed(self, at, address, offset, octets):
        """Takes an access of the instruction at a place: what to hold first, if anything, and what it is then in."""
        key, first = address.key(), signed((address.number + offset) % ALL)
        group = (self.run, key, tuple(self.changes[name] for name, _ in key))
        self.groups.setdefault(group, []).append((at, first, first + octets))
        found = self.holding(key, first, octets)
        if found or self.plan.get(at, ("",))[0] != key:
            return None, found
        held = Held(*self.plan[at], f"p{at}")
        self.known |= {held}
        return held, self.holding(key, first, octets)

    def holding(self, key, first, octets):
        """Known octets that contain these."""
        fit = [it for it in self.known if it.key == key and it.first <= first and first + octets <= it.end]
        return min(fit, key=lambda it: it.name, default=None)

    def planned(self):
        """For the first access of each group of several: what to hold."""
        several = [(group[1], found) for group, found in self.groups.items() if len(found) > 1]
        spans = {found[0][0]: (key, min(it[1] for it in found), max(it[2] for it in found)) for key, found in several}
        return {at: span for at, span in spans.items() if span[2] - span[1] < MOST}
