"""The words of watches, edits and questions, by docs/PROTOCOL.md, and what a session's line asks for."""
from .plain_words import cell_of, number, words_of

SLOTS = {
    "agent": lambda word, strict: number(word, 65535, strict) is not None,
    "time": lambda word, strict: number(word, 4294967295, strict) is not None,
    "cell": lambda word, strict: cell_of(word, strict) is not None,
    "kind": lambda word, strict: word in (b"vertex", b"edge", b"follow", b"swap", b"cycle"),
}

# Of a first word the words behind it, and what more there may be of.
EDITS = {
    b"agent": ("agent cell cell", None), b"drop": ("agent", None), b"goal": ("agent cell", None), b"path": ("agent", "cell"),
    b"tail": ("agent time", "cell"), b"open": ("cell", None), b"close": ("cell", None),
}
WATCHES = {b"agent": ("agent", None), b"cell": ("cell", None), b"map": ("", None)}
OTHERS = {
    b"begin": ("", None), b"commit": ("", None), b"cancel": ("", None), b"version": ("", None), b"report": ("", None),
    b"distance": ("agent cell", None), b"solves": ("kind", "kind"),
}


def fits(words, forms, strict=False):
    """Whether the words are of one of the forms; none where their first is none of a form."""
    if not words or words[0] not in forms:
        return None
    slots, more = forms[words[0]]
    slots, rest = slots.split(), words[1:]
    slots += [more] * (len(rest) - len(slots) if more else 0)
    return len(rest) == len(slots) and all(SLOTS[slot](word, strict) for word, slot in zip(rest, slots))


def asked_by(line):
    """What a line asks for: its first word (of any edit `edit`), `nothing`, or why it is bad."""
    words = words_of(line)
    if not words or words[0][:1] == b"#":
        return "nothing"
    first = words[0]
    for forms, asks in ((EDITS, "edit"), (OTHERS, first.decode("latin1"))):
        if first in forms:
            return asks if fits(words, forms) else "bad shape"
    if first == b"watch":
        return "watch" if fits(words[1:], WATCHES) else "bad shape"
    return "bad word"
