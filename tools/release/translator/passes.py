"""Which parts of the translation are done."""

import dataclasses


@dataclasses.dataclass(frozen=True)
class Passes:
    """The parts of the translation that make the result smaller or faster. Each may be left out: the result does the
    same without it, and the tests compare both."""

    own_frames: bool = True  # gives the place of a frame a variable of its own
    frames: bool = True      # reaches the octets of a frame without a check of each access
    room: bool = True        # knows that a frame has room
    together: bool = True    # holds several accesses to their window at once
    folded: bool = True      # makes an exclusive-or of octets many at a time
    parted: bool = True      # lends a call only those constants that it can reach
