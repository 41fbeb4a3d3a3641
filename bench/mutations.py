"""Texts that are changed a little: bytes, tokens, names or numbers, lists and layout."""
import re

TOKEN = re.compile(r"[()]|[^\s();]+")
ODD = [b"(", b")", b" ", b"\n", b";", b"-", b"0", b"7", b"a", b"=", b"\x80", b"\t", b"\x01", b"9223372036854775808"]
WORDS = ["0", "1", "-1", "2", "007", "-0", "true", "goal", "me", "to", "self", "guard", "fits", "hooks", "mine", "x",
         "a", "+", "-", "<=", "<", "=", "use", "goal", "open", "inst", "decide", "reduce", "linear", "add", "div",
         "9223372036854775807", "-9223372036854775808", "and", "not", "some", "node", "receive", "names", "pre", "test",
         "other", "post", "frame", "result", "send", "await", "poll", "read", "set", "if", "while", "call", "got",
         "after", "miss", "stable", "body", "exit", "enter", "leave", "start", "deploy"]
FORMULAS = re.compile(r"\((?:=|<|<=|not|and|or|implies|all|some|each|any)\s")


def by_bytes(text, rng):
    """A byte dropped, put in or changed."""
    data = text.encode("latin-1")
    at = rng.randrange(len(data) + 1)
    kind = rng.random()
    if kind < 0.4 and data:
        at = min(at, len(data) - 1)
        return (data[:at] + data[at + 1:]).decode("latin-1")
    odd = rng.choice(ODD)
    keep = at if kind < 0.7 else min(len(data), at + 1)
    return (data[:at] + odd + data[keep:]).decode("latin-1")


def code(text):
    """The tokens outside comments."""
    comments = [(m.start(), m.end()) for m in re.finditer(r";[^\n]*", text)]
    out, at = [], 0
    for m in TOKEN.finditer(text):
        while at < len(comments) and comments[at][1] <= m.start():
            at += 1
        if at == len(comments) or m.start() < comments[at][0]:
            out.append(m)
    return out


def by_word(text, rng):
    """A token in place of another one."""
    tokens = [m for m in code(text) if m.group() not in "()"]
    if not tokens:
        return text
    old = rng.choice(tokens)
    new = rng.choice(tokens).group() if rng.random() < 0.6 else rng.choice(WORDS)
    return text[:old.start()] + new + text[old.end():]


def by_number(text, rng):
    """A number that is another one."""
    tokens = [m for m in code(text) if re.fullmatch(r"-?[0-9]{1,18}", m.group())]
    if not tokens:
        return text
    old = rng.choice(tokens)
    new = rng.choice([int(old.group()) + rng.choice([1, -1]), rng.randint(-2, 9), int(rng.choice(tokens).group())])
    return text[:old.start()] + str(new) + text[old.end():]


def lists(text):
    """The ends of each list of the text."""
    out, open_at = [], []
    for m in code(text):
        if m.group() == "(":
            open_at.append(m.start())
        elif m.group() == ")" and open_at:
            out.append((open_at.pop(), m.end()))
    return out


def by_list(text, rng):
    """A list dropped, doubled, or put in the place of another one."""
    found = lists(text)
    if not found:
        return text
    start, end = rng.choice(found)
    kind = rng.random()
    if kind < 0.3:
        return text[:start] + text[end:]
    if kind < 0.55:
        return text[:end] + " " + text[start:end] + text[end:]
    other = rng.choice(found)
    return text[:start] + text[other[0]:other[1]] + text[end:]


def by_formula(text, rng):
    """A formula that is `true`, denied, or another one of the text."""
    found = [ends for ends in lists(text) if FORMULAS.match(text, ends[0])]
    if not found:
        return text
    start, end = rng.choice(found)
    other = rng.choice(found)
    new = rng.choice(["true", "(not %s)" % text[start:end], text[other[0]:other[1]]])
    return text[:start] + new + text[end:]


def by_head(text, rng):
    """A list doubled, dropped or put in the place of another one with the same head."""
    found = [(text[start + 1:end].split(None, 1)[0], start, end) for start, end in lists(text) if end - start > 2]
    if not found:
        return text
    head, start, end = rng.choice(found)
    kind = rng.random()
    if kind < 0.25:
        return text[:start] + text[end:]
    if kind < 0.45:
        return text[:end] + " " + text[start:end] + text[end:]
    _, first, last = rng.choice([one for one in found if one[0] == head])
    return text[:start] + text[first:last] + text[end:]


def by_cut(text, rng):
    """A front of the text."""
    return text[:rng.randrange(len(text) + 1)]


def by_layout(text, rng):
    """A comment or a blank line between two tokens."""
    spots = [m.start() for m in re.finditer(r"\s", text)]
    if not spots:
        return text
    at = rng.choice(spots)
    return text[:at] + rng.choice(["\n", " ; a ) comment\n", "\t\r ", "\n\n  "]) + text[at:]


ANY = [by_bytes, by_word, by_word, by_word, by_list, by_list, by_layout]
# What leaves a text's form, and often its names, as they are.
WITHIN = [by_number, by_number, by_formula, by_formula, by_formula, by_head, by_head, by_word]


def changed(text, rng, ways):
    """The text, changed in one to three of these ways."""
    for _ in range(rng.choice([1, 1, 1, 2, 3])):
        text = rng.choice(ways)(text, rng)
    return text


def mutated(texts, rng):
    """One of the texts, changed, as bytes."""
    ways = [by_cut] if rng.random() < 0.03 else rng.choice([ANY, WITHIN])
    return changed(rng.choice(texts), rng, ways).encode("latin-1")
