"""The frames of a function.

A frame is the part of the module's stack that a function takes. Its size is in the code, so an access is known to lie
in it, and `at` of machine.h is called once for the whole frame.
"""

from wasm import (BLOCK, CODES, COMPARED, END, GLOBAL_GET, I64, I64_CONST, IF, LOCAL_GET, LOCAL_SET, LOCAL_TEE, LOOP,
                  NAMES)


def frames_of(function):
    """The variables that are set to a frame, which is the place of the stack less a number; and these numbers."""
    found, body = {}, function.body
    for at, (code, said) in enumerate(body[:-3]):
        if (code, said) == (GLOBAL_GET, 0) and body[at + 1][0] == I64_CONST and body[at + 2][0] == CODES["i64.sub"]:
            to, name = body[at + 3]
            if to in (LOCAL_SET, LOCAL_TEE):
                found[name] = body[at + 1][1]
    return found


def loops_of(body):
    """Where each loop of a function begins and ends."""
    found, open_ones = [], []
    for at, (code, _) in enumerate(body):
        if code in (BLOCK, LOOP, IF):
            open_ones.append((code, at))
        elif code == END:
            first, begun = open_ones.pop()
            found += [(begun, at)] if first == LOOP else []
    return found


def set_in_loop(body, at):
    """The variables that the loop which begins at an instruction sets."""
    end = dict(loops_of(body))[at]
    return {said for code, said in body[at:end] if code in (LOCAL_SET, LOCAL_TEE)}


def own_frame(function):
    """Gives the place of the frame its own variable, in case the compiler sets the first one again. The new one is read
    where no later set can have come before, such as one in the same loop."""
    body, loops = function.body, loops_of(function.body)
    for name in frames_of(function):
        sets = [at for at, it in enumerate(body) if it in ((LOCAL_SET, name), (LOCAL_TEE, name))]
        own = len(function.takes) + len(function.variables)
        function.variables.append(I64)
        for at, it in enumerate(body):
            round_again = [after for after in sets[1:] if any(a <= at <= b and a <= after <= b for a, b in loops)]
            if it == (LOCAL_GET, name) and sets[0] < at < min(sets[1:], default=len(body)) and not round_again:
                body[at] = (LOCAL_GET, own)
        body.insert(sets[0], (LOCAL_TEE, own))


def kept(function):
    """The frames whose variables have no other value, and the copies of such variables."""
    body = function.body
    sets = [said for code, said in body if code in (LOCAL_SET, LOCAL_TEE)]
    found = {name: size for name, size in frames_of(function).items() if sets.count(name) == 1}
    for (code, said), (after, to) in zip(body, body[1:]):
        if code == LOCAL_GET and said in found and after in (LOCAL_SET, LOCAL_TEE) and sets.count(to) == 1:
            found[to] = found[said]
    return found


def looks_at_stack(body, at):
    """Whether the place of the stack is only compared with a number, as in a check for room. It may also be kept in a
    variable, from which it is set again."""
    after = at + 2 if body[at + 1][0] == LOCAL_TEE else at + 1
    compares = NAMES.get(body[after + 1][0], "").removeprefix("i64.") in COMPARED
    return body[at] == (GLOBAL_GET, 0) and body[after][0] == I64_CONST and compares
