"""What the legal sessions of tools/gate/try-legal have of the clauses: each has to come at least once."""

ENDS = ("terminal", "card")
# in place of what each end asks for a size, and the card for time
PLACES = ("a message", "a block of its chain", "an acknowledgment", "a message or a hand-over after ABORT")
# in place of what a terminal asks for RESYNCH
ANEW = ("the first block", "a message", "a message or a hand-over after ABORT", "an I-block again",
        "an R-block after an error", "a request again", "a refusal")
# what each end does
BOTH = ("chain", "longer chain", "empty I-block", "acknowledgment", "I-block again", "R-block after an error",
        "refusal", "refusal after a request", "IFS again", "IFS response", "ABORT again", "ABORT response",
        "ABORT in place of a block of its chain", "ABORT in place of an acknowledgment",
        "hand-over after ABORT", *(f"IFS in place of {place}" for place in PLACES), "damaged block", "lost block")
# what one of them does
TERMINAL = ("IFS in place of the first block", "WTX response", "RESYNCH again",
            *(f"RESYNCH in place of {what}" for what in ANEW))
CARD = ("WTX again", *(f"WTX in place of {place}" for place in PLACES))
# what a line has
LINE = ("PPS", "pair of node addresses other than 00", "turn to another connection",
        "block of another pair that the card refuses in its own connection",
        "block of another pair that the card doesn't answer", "card that takes damaged octets for noise",
        "reset in the midst", "reset of a terminal that gives up", "block that the tap doesn't see",
        "block that comes late", "beginning in the midst", "moments")
# each of these by its name, with what the ends count of it
FEATURES = {
    **{name: [f"{name} of the {end}" for end in ENDS] for name in BOTH},
    **{name: [f"{name} of the terminal"] for name in TERMINAL},
    **{name: [f"{name} of the card"] for name in CARD},
    **{name: [name] for name in LINE},
}
