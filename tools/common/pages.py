"""Finds the parts of a page, and the anchors by which links reach its headings."""

import re


def anchor_of(title, taken):
    """The anchor of a heading, which differs from those that earlier headings have taken."""
    anchor = re.sub(r"[^\w\- ]", "", title.lower()).replace(" ", "-")
    count = 0
    while (name := f"{anchor}-{count}" if count else anchor) in taken:
        count += 1
    return name


def parts_of(text):
    """The parts of a page, each from its heading to the next, by the heading's anchor."""
    parts, name, is_code = {}, "", False
    for line in text.splitlines():
        is_code ^= line.startswith("```")
        found = re.match(r"#+ (.*)", line)
        if found and not is_code:
            name = anchor_of(found[1], parts)
        parts.setdefault(name, []).append(line)
    return {anchor: "\n".join(lines) for anchor, lines in parts.items()}
