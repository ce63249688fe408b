"""Converts an object of the program's JSON back to the lines of the text that it stands for.

A form here is a line with the names of members in braces. After a `|` comes the word for a member that is null or
absent. A blank before a name is written only if the member is present. An empty form is no line."""

import json
import re

PLACE = re.compile(r"\{( ?)(\w+)(?:\|(\w+))?\}")
EXCHANGE = "exchange {exchange} command {command} answer {answer} blocks {blocks}"
# the members of an answer in the order of their lines: the form of the line of each, and that of its items
LINES = {
    "convention": ("convention {convention}", ""),
    "interface": ("", "{name} {value}"),
    "historical": ("historical {historical}", ""),
    "tck": ("tck {tck|absent}", ""),
    "F": ("F {F|reserved}", ""),
    "D": ("D {D|reserved}", ""),
    "t1": ("", ""),
    "nad": ("nad {nad}", ""),
    "pcb": ("", ""),
    "inf": ("inf {inf}", ""),
    "lrc": ("lrc {lrc}", ""),
    "blocks": ("blocks {blocks}", ""),
    "message": ("message {message}", ""),
    "case": ("case {case}{ length}", ""),
    "header": ("header {header}", ""),
    "part": ("part {part}", ""),
    "le": ("le {le|none}", ""),
    "status": ("status {status} {class}", ""),
    "objects": ("objects {count}", "{tag} {length} {value|constructed}"),
    "entries": ("entries {count}", "{tag} {length}"),
    "exchanges": ("", EXCHANGE + " lost {lost} damaged {damaged} time {time|none}"),
    "lines": ("", ""),
}
# the forms of lines that have an object of their own, by a member that only such an object has
INNER = {
    "ifsc": "t1 ifsc {ifsc} bwi {bwi} cwi {cwi}",
    "reason": "t1 {reason}",
    "more": "pcb {kind} number {number} more {more}",
    "error": "pcb {kind} number {number} error {error}",
    "request": "pcb {kind} request {request}",
    "response": "pcb {kind} response {response}",
}
# a member of each kind of value that is shown: the lines of such a value have no verdict
VALUES = {"convention", "nad", "message", "case", "class", "objects", "entries"}
# the form of the line with a verdict, by the verdict and a member that the object has too
VERDICTS = (
    ("ok", "octets", "ok {octets} octets"),
    ("ok", "lines", "ok {lines} lines"),
    ("short", "at", "short at {at}"),
    ("refused", "at", "refused at {at}: {reason}"),
    ("refused", "line", "refused at line {line}: {reason}"),
    ("refused", "reason", "refused: {reason}"),
    ("fault", "line", "fault: line {line}: {fault}"),
    ("fault", "fault", "fault: {fault}"),
    ("differs", "line", "line {line}: engine gives {gives}"),
)
# the form of the line of a finding, by its kind and a member that it has too
LATE = "block {block} {end}: late, {after} microseconds after block {before}, permitted {permitted}  ({clause})"
EARLY = LATE.replace("late", "early").replace("permitted", "permitted from", 1)
UNWAITED = "{end}: no answer to block {before}, permitted if the terminal sent before its waiting time ended"
KEPT = "terminal kept {terminal_kept} broken {terminal_broken}, card kept {card_kept} broken {card_broken}"
FINDINGS = (
    ("rule", "never", "rule {rule}: never"),
    ("rule", "rule", "rule {rule}: " + KEPT),
    ("state", "never", "state {state}: never"),
    ("state", "state", "state {state}: terminal {terminal}, card {card}"),
    ("pps", "kind", "pps F {F|reserved} D {D|reserved}"),
    ("neither", "line", "line {line}: neither PPS nor a block"),
    ("elsewhere", "block", "block {block} {end}: another logical connection, not judged  ({clause})"),
    ("late", "block", LATE),
    ("early", "block", EARLY),
    ("unwaited", "before", UNWAITED),
    ("unseen", "block", "block {block} {end}: permitted if block {before} was damaged or lost unseen"),
    ("unseen", "before", "{end}: no answer to block {before}, permitted if that was lost unseen"),
)
# the form of the line of each other finding, with a block and without one
BROKEN = "block {block} {end}: {rule}, due {due}  ({clause})"
SILENT = "{end}: no answer to block {before}, which it got  ({clause})"


def value_of(value, null):
    """A value as a line has it, and a word for null."""
    if value is None:
        return null
    if value in ("", []):
        return "none"
    if isinstance(value, list):
        return ",".join(map(json.dumps, value))
    return value if isinstance(value, str) else json.dumps(value)


def line_of(one, form):
    """A line of a form with the members of an object."""
    def member(place):
        blank, name, null = place.groups("")
        return "" if blank and name not in one else blank + value_of(one.get(name), null)

    return PLACE.sub(member, form) + "\n" if form else ""


def form_in(forms, kind, one, other):
    """The form for an object of a kind in a list of forms, or another form if the list has none."""
    return next((form for it, member, form in forms if it == kind and member in one), other)


def verdict_line(one):
    """The line with the verdict of an object. It is empty for a value that is shown, and for a list of lines."""
    verdict, has_count = one.get("verdict"), "octets" in one or isinstance(one.get("lines"), int)
    if verdict == "ok" and (not VALUES.isdisjoint(one) or not has_count):
        return ""
    return line_of(one, form_in(VERDICTS, verdict, one, ""))


def item_lines(item, form):
    """The line of an item, which is a text or an object. Two blanks are written for each depth above 1."""
    if isinstance(item, dict):
        return "  " * (item.get("depth", 1) - 1) + line_of(item, form)
    return item + "\n" if isinstance(item, str) else ""


def member_lines(answer, name):
    """The lines that a member of an answer stands for."""
    value, (form, item) = answer[name], LINES[name]
    if isinstance(value, dict):
        return "".join(line_of(value, inner) for it, inner in INNER.items() if it in value)
    items = value if isinstance(value, list) else []
    return line_of(answer, form) + "".join(item_lines(it, item) for it in items)


def with_notes(lines, notes):
    """The lines with the notes on them, which are in the order of the lines."""
    left, noted = list(notes), []
    for line in lines.split("\n"):
        noted.append(f"{line}  # {left.pop(0)['note']}" if left and left[0]["line"] == line else line)
    return "\n".join(noted)


def counted(number, thing):
    """A number of things."""
    return f"{number} {thing}" + "s" * (number != 1)


def finding_line(one):
    """The line of a finding in a judged trace."""
    return line_of(one, form_in(FINDINGS, one.get("kind"), one, BROKEN if "block" in one else SILENT))


def judgment_lines(answer):
    """The lines of a judged trace."""
    text, blocks = "".join(map(finding_line, answer["told"])), counted(answer["blocks"], "block")
    damage = [answer.get(name, 0) for name in ("terminal_damaged", "card_damaged")]
    damaged = f", damaged terminal {damage[0]} card {damage[1]}" if any(damage) else ""
    others = f", not judged {answer['not_judged']}" if "not_judged" in answer else ""
    if answer["verdict"] in ("ok", "unsure"):
        unseen = f", unseen {answer['unseen']}" if "unseen" in answer else ""
        return f"{text}{answer['verdict']} {blocks}{unseen}{others}{damaged}\n"
    times = "".join(f", {it} {answer[it]}" for it in ("late", "early") if it in answer)
    ends = ": terminal {terminal}, card {card}, unseen {unseen}" + others + times
    return f"{text}{blocks}, {counted(answer['deviations'], 'deviation')}" + line_of(answer, ends + damaged)


def text_of(answer):
    """The lines that an object stands for."""
    if "told" in answer:
        return judgment_lines(answer)
    lines = "".join(f"{it}: {verdict_line(answer[it])}" for it in ("terminal", "card") if it in answer)
    lines += verdict_line(answer) + "".join(member_lines(answer, it) for it in LINES if it in answer)
    return with_notes(lines, answer.get("notes", []))


def are_right(bounds, octets):
    """Whether bounds are those of ranges of so many octets, in their order."""
    return bool(bounds) and len(bounds) % 2 == 0 and sorted(bounds) == bounds and 0 <= bounds[0] <= bounds[-1] <= octets


def are_placed(answer):
    """Whether each line of a value that is shown has its octets, and no other answer has any."""
    if VALUES.isdisjoint(answer):
        return "places" not in answer
    places = answer["places"]
    return len(places) == text_of(answer).count("\n") and all(are_right(it, answer["octets"]) for it in places)
