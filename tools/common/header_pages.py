"""Makes the pages for man of the calls in C, one for each part of the headers, so that both say the same."""

import re

from stack import TOP

# The name of each part's page, by the header and the part's title up to a bracket.
PARTS = {
    "scard.h": {
        "verdicts": "scard_verdict",
        "names": "scard_names",
        "explanations in words": "scard_note",
        "octets": "scard_octets",
        "answers to reset": "scard_atr",
        "blocks of T=1": "scard_block",
        "chains of I-blocks": "scard_chain",
        "commands and responses": "scard_apdu",
        "data objects": "scard_tlv",
        "both ends of a T=1 session": "scard_ends",
        "both ends without an allocator": "scard_lent_ends",
        "readers of octets that arrive in pieces": "scard_readers",
        "a check of a forest in pieces, without an allocator": "scard_lent_check",
        "a chain in pieces, without an allocator": "scard_lent_receiver",
        "a block and an answer to reset in pieces, without an allocator": "scard_lent_readers",
        "framing": "scard_lent_framer",
        "the line of an end, without an allocator": "scard_lent_line",
        "a session above its line, without an allocator": "scard_lent_session",
        "a judge of the blocks on a line, without an allocator": "scard_lent_judge",
        "sizes of the structs": "scard_sizes",
    },
    "scard_session.h": {
        "the line": "scard_line",
        "the loop of both ends": "scard_session_loop",
        "the terminal": "scard_session_terminal",
        "the card": "scard_session_card",
    },
}
PART = re.compile(r"^/\* ---- (.*?) ---- \*/\n", re.M)
COMMENT = re.compile(r"/\*(.*?)\*/\n", re.S)
CALL = re.compile(r"\b(scard_\w+)\(")
CODE = re.compile(r"\b(?:struct |enum )?(?:scard_\w+(?:\(\))?|SCARD_\w+)|`([^`]*)`")


class Item:
    """A comment of a header at the beginning of a line, and the declarations after it."""

    def __init__(self, comment, code):
        self.paragraphs = [re.sub(r"\s*\n \* ?", " ", it).strip() for it in re.split(r"\n \*\n \* ?", comment)]
        self.code = [shortened(it) for it in re.split(r"\n\n+", code.strip("\n")) if it]

    def calls(self):
        """The names of the functions that it declares."""
        heads = (CALL.search(it) for part in self.code for it in prototypes(part))
        return [head[1] for head in heads if head]


def shortened(code):
    """A declaration; of a function that the header defines, only the head."""
    return re.sub(r"\n\{\n.*?\n\}$", ";", code.replace("static inline ", ""), flags=re.S)


def prototypes(code):
    """The prototypes among declarations, each on its own."""
    if re.match(r"(typedef |struct \w+ \{|enum |#)", code):
        return []
    return [it.strip() + ";" for it in code.replace("SCARD_MUST_USE\n", "").split(";") if it.strip()]


def items(text):
    """The items of a part."""
    starts = [found for found in COMMENT.finditer(text) if text[found.start() - 1 : found.start()] in ("\n", "")]
    ends = [*(it.start() for it in starts[1:]), len(text)]
    return [Item(it[1].strip(), text[it.end() : end]) for it, end in zip(starts, ends)]


def parts(header):
    """Each part of a header: its title, what the title names in the standard, and its items."""
    text = (TOP / "include" / header).read_text()
    text = re.sub(r"\n#ifdef __cplusplus\n\}\n#endif\n\n#endif\n$", "\n", text)
    text = re.sub(r"^#(ifndef SCARD_NO_HANDLES|endif /\* SCARD_NO_HANDLES \*/)\n\n", "", text, flags=re.M)
    heads = list(PART.finditer(text))
    ends = [*(it.start() for it in heads[1:]), len(text)]
    for head, end in zip(heads, ends):
        title, _, clause = head[1].partition(" (")
        yield title, clause.rstrip(")"), items(text[head.end() : end])


def overview(version, form):
    """The lines of the page with what holds for all calls, and with a list of the other pages."""
    head = (TOP / "include/scard.h").read_text().partition("#ifndef")[0]
    yield from (f'.TH LIBSCARD 3 "" "scard {version}"', ".ad l", ".nh")
    yield from (".SH NAME", r"libscard \- codecs and both ends of T=1 for programs in C")
    yield from (".SH SYNOPSIS", ".nf", "#include <scard.h>", ".fi", ".SH DESCRIPTION")
    for paragraph in items(head)[0].paragraphs:
        yield from (".PP", form.safe(stressed(paragraph, form.text)))
    for header, names in PARTS.items():
        yield f'.SH "{form.code(f"PAGES OF {header}".upper())}"'
        for title, name in names.items():
            yield from (".TP", rf"\fB{name}\fR(3)", form.text(title))


def stressed(text, escaped):
    """A paragraph with its names and its code in fonts."""
    out, at = "", 0
    for found in CODE.finditer(text):
        out += escaped(text[at : found.start()])
        out += rf"\fB{escaped(found[1] if found[1] is not None else found[0])}\fR"
        at = found.end()
    return out + escaped(text[at:])


def page(header, name, title, clause, listed, version, form):
    """The lines of a page: `form` escapes text and code, and keeps a line from being a request."""
    calls = [call for item in listed for call in item.calls()]
    yield from (f'.TH {form.code(name.upper())} 3 "" "scard {version}"', ".ad l", ".nh")
    names = ", ".join([name, *(it for it in calls if it != name)])
    yield from (".SH NAME", rf"{form.code(names)} \- {form.text(title)}")
    yield from (".SH SYNOPSIS", ".nf", form.code(f"#include <{header}>"), "")
    for item in listed:
        for it in (it for part in item.code for it in prototypes(part)):
            yield from (form.safe(form.code(line)) for line in it.split("\n"))
    yield from (".fi", ".PP", "Link with libscard.a or libscard.so.", ".SH DESCRIPTION")
    if clause:
        yield from (".PP", form.text(f"{clause[0].upper()}{clause[1:]}."))
    for item in listed:
        if item.calls():
            yield f'.SS "{form.code(", ".join(item.calls()))}"'
        for paragraph in item.paragraphs:
            yield from (".PP", form.safe(stressed(paragraph, form.text)))
        for code in (it for it in item.code if not prototypes(it)):
            yield from (".PP", ".RS 4", ".nf", *(form.safe(form.code(line)) for line in code.split("\n")), ".fi", ".RE")
    yield from (".SH SEE ALSO", r"\fBlibscard\fR(3), \fBscard\fR(1), docs/C.md of the sources")


def header_pages(version, form):
    """Each page by its name: its lines, or the name of the page that has the call of this name."""
    yield "libscard", list(overview(version, form))
    for header, names in PARTS.items():
        for title, clause, listed in parts(header):
            name = names[title]
            yield name, list(page(header, name, title, clause, listed, version, form))
            for call in (call for item in listed for call in item.calls()):
                if call != name:
                    yield call, [f".so man3/{name}.3"]
