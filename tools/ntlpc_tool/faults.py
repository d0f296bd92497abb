"""The kinds of faults that a line of a script can have, as docs/SCRIPTS.md, "Faulty lines", numbers them."""

KINDS = {
    1: "a byte outside 32 to 126",
    2: "a word of the language that isn't known in its place",
    3: "the second word is the name of no call",
    4: "too few or too many words",
    5: "a number out of form or range",
    6: "digits that aren't pairs of hexadecimal digits",
    7: "a message or an INFO of none of its forms",
    8: "a SID that isn't spelled as one",
    9: "a line of more than 16,384 bytes",
    10: "a line behind line 1,000,000",
}


def name_of(kind):
    """What a kind of fault is."""
    return KINDS.get(kind, "a kind of fault without a name here")
