"""Files with programs that are changed where they often stay accepted: nodes, deployment, constants and programs."""
import re

from mutations import by_formula, by_head, by_number, by_word, changed, code, lists


def parts(text, start):
    """The ends of the parts of the list that begins there."""
    out, depth, begun = [], 0, None
    for m in code(text[start:]):
        word = m.group()
        if word == "(":
            depth += 1
            if depth == 2:
                begun = m.start()
        elif word == ")":
            depth -= 1
            if depth == 0:
                return out
            if depth == 1:
                out.append((start + begun, start + m.end()))
        elif depth == 1:
            out.append((start + m.start(), start + m.end()))
    return out


def of_head(text, head):
    """The ends of each list with this head."""
    return [ends for ends in lists(text) if re.match(r"\(%s[\s)]" % head, text[ends[0]:ends[0] + len(head) + 2])]


def replaced(text, start, end, new):
    return text[:start] + new + text[end:]


def other_order(text, rng, head, kept):
    """The list of this head with its parts after the first ones in another order."""
    start, end = of_head(text, head)[0]
    words = [text[first:last] for first, last in parts(text, start)]
    moved = words[kept:]
    rng.shuffle(moved)
    return replaced(text, start, end, "(%s)" % " ".join(words[:kept] + moved))


def by_nodes(text, rng):
    """The nodes in another order: that of the turns."""
    return other_order(text, rng, "nodes", 1)


def by_more_nodes(text, rng):
    """A node more."""
    start, end = of_head(text, "nodes")[0]
    return text[:end - 1] + " more" + text[end - 1:]


def by_deployed_order(text, rng):
    """The programs of a deployment in another order."""
    return other_order(text, rng, "deploy", 2)


def programs(text):
    """The deployment and the words of each program."""
    start, end = of_head(text, "deploy")[0]
    words = [text[first:last] for first, last in parts(text, start)]
    return start, end, words[1], [word[1:-1].split() for word in words[2:]]


def deployed(text, start, end, world, made):
    return replaced(text, start, end, "(deploy %s)" % " ".join([world] + ["(%s)" % " ".join(one) for one in made]))


def by_fewer(text, rng):
    """A node without its program."""
    start, end, world, made = programs(text)
    if made:
        made.pop(rng.randrange(len(made)))
    return deployed(text, start, end, world, made)


def by_other_program(text, rng):
    """A node with the program of another one, or a node more with one."""
    start, end, world, made = programs(text)
    if not made:
        return text
    first, last = of_head(text, "nodes")[0]
    node = rng.choice(text[first + 1:last - 1].split()[1:])
    kept = [one for one in made if one[0] != node]
    kept.insert(rng.randint(0, len(kept)), [node] + rng.choice(made)[1:])
    return deployed(text, start, end, world, kept)


def by_constant(text, rng):
    """Another constant for a parameter."""
    start, end, world, made = programs(text)
    found = [one for one in made if len(one) > 2]
    if found:
        one = rng.choice(found)
        one[rng.randrange(2, len(one))] = str(rng.choice([0, 1, 2, 9, -1, (1 << 63) - 1, rng.randint(0, 9)]))
    return deployed(text, start, end, world, made)


def in_body(text, rng, ways):
    """Something in the body of a procedure or what it returns in one of these ways."""
    found = of_head(text, "body") + of_head(text, "return")
    if not found:
        return text
    start, end = rng.choice(found)
    return replaced(text, start, end, changed(text[start:end], rng, ways))


def by_body(text, rng):
    """A number, a formula, a word or a list of the same head within a body."""
    return in_body(text, rng, [by_number, by_number, by_formula, by_word, by_head])


def by_command(text, rng):
    """A command of a body dropped, doubled or put elsewhere in it."""
    start, end = rng.choice(of_head(text, "body") or [(0, 0)])
    found = parts(text, start)[1:] if end else []
    if not found:
        return text
    words = [text[first:last] for first, last in found]
    kind, at = rng.random(), rng.randrange(len(words))
    moved = words.pop(at) if kind < 0.7 else words[at]
    if kind > 0.35:
        words.insert(rng.randint(0, len(words)), moved)
    return replaced(text, start, end, "(body %s)" % " ".join(words))


def by_set(text, rng):
    """A `set` of a local, a number at times that is large, somewhere in a body."""
    found = [ends for ends in of_head(text, "proc") if of_head(text[slice(*ends)], "locals")]
    if not found:
        return text
    start, end = rng.choice(found)
    proc = text[start:end]
    first, last = of_head(proc, "locals")[0]
    names = proc[first + 1:last - 1].split()[1:]
    if not names or not of_head(proc, "body"):
        return text
    spots = [start + last for _, last in parts(proc, of_head(proc, "body")[0][0])]
    value = rng.choice(["me", "7", "(+ %s 9223372036854775807)" % rng.choice(names), "(* %s 2)" % rng.choice(names)])
    at = rng.choice(spots)
    return replaced(text, at, at, " (set %s %s)" % (rng.choice(names), value))


WAYS = [by_nodes, by_more_nodes, by_deployed_order, by_fewer, by_other_program, by_constant, by_constant, by_body, by_command,
        by_set, by_set]


def variant(texts, rng):
    """One of the texts, changed in some of these ways."""
    text = rng.choice(texts)
    for _ in range(rng.choice([1, 1, 2, 2, 3])):
        text = rng.choice(WAYS)(text, rng)
    return text.encode("latin-1")
