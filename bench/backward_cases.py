#!/usr/bin/env python3
"""Writes the table of backward steps that the tests of dl_trials_wp compare with.

    PYTHONPATH=DIR python3 bench/backward_cases.py --peer PACKAGE > crates/dl_trials_wp/src/cases.rt

PACKAGE is an independent reading of the notation: a Python package with the submodules `check`, which
reads a text, `obligations`, which lists its obligations and builds their sequents, and `wp`, whose
`Step.before` and `at_init` make the formulas. The texts are those of bench/texts. Each obligation in
which a formula changes by a step, or stands in the first state, is one case: the step, the formula
after it, and what the package says before it. Nothing of the crates is asked. The file is laid out
here. Standard library only.
"""
import argparse
import importlib
import os
import re
import sys

TEXTS = os.path.join(os.path.dirname(os.path.abspath(__file__)), "texts")
EXAMPLES = ["mail", "vote", "commit", "rows"]
HEAD = """//! Backward steps of example files, each with the formula after it and the formula before it.
//!
//! Made by bench/backward_cases.py from the texts of bench/texts. The formulas before are those of another reading of
//! the notation. The words of a formula stand after their parts.

use crate::examples::Example;
use crate::steps::{Case, Step};
use crate::words::Word::{
    Add, All, And, Any, Each, Eq, Exists, Field, If, Implies, Le, Len, Lt, Msg, Name, Not, Num, Or,
    Row, Sub, True, Var,
};
use dl_term::{Lab, Part};

const OWN: Lab = Lab::Own;

const T: Lab = Lab::At(0);

const U: Lab = Lab::At(1);

"""
LABELS = {"self": "OWN", 0: "T", 1: "U"}
WIDTH = 110


class Numbers:
    """Numbers of names: first the words that may not be declared, then each name of a text where it first stands."""

    def __init__(self, reserved, source):
        self.known = {name: k for k, name in enumerate(reserved)}
        for name in re.findall(r"[a-z]+", source):
            self.of(name)

    def of(self, name):
        return self.known.setdefault(name, len(self.known))


def numbers_of(node, numbers):
    """What a node's word has besides its parts."""
    kind, parts = node.k, node.a
    if kind == "num":
        return [str(parts[0])]
    if kind == "word":
        return [str(numbers.of(parts[0])), str(parts[1])]
    if kind in ("field", "row"):
        return [LABELS[parts[0]], str(parts[1])]
    if kind == "len":
        return [LABELS[parts[0]]]
    if kind in ("var", "all", "some"):
        return [str(numbers.of(parts[0]))]
    if kind in ("each", "any"):
        return [str(numbers.of(parts[0])), LABELS[parts[1]], str(parts[2])]
    if kind == "msg":
        part = "Part::" + parts[1].capitalize()
        return [str(numbers.of(parts[0])), part + ("(%d)" % parts[2] if parts[1] == "arg" else "")]
    return []


def word(node, numbers):
    """The word of a node."""
    kind = {"word": "Name", "some": "Exists"}.get(node.k, node.k.capitalize())
    own = numbers_of(node, numbers)
    return kind + ("(%s)" % ", ".join(own) if own else "")


def postfix(node, numbers):
    """The words of a node, each after its parts."""
    out = []
    for part in node.a:
        if hasattr(part, "k"):
            out += postfix(part, numbers)
    return out + [word(node, numbers)]


def text(node, numbers):
    """The words as a list, in lines that are not too long."""
    lines, line = [], ""
    for one in postfix(node, numbers):
        if line and len(line) + 2 + len(one) > WIDTH:
            lines.append(line)
            line = one
        else:
            line = (line + ", " + one) if line else one
    if not lines:
        return "&[%s]" % line
    return "&[\n            " + ",\n            ".join(lines + [line]) + ",\n        ]"


def step_text(step, numbers):
    """The step as a case has it."""
    if step is None:
        return "Step::First"
    place = "label: %s, tag: %d" % (LABELS[step.label], step.tag)
    if step.kind == "receive":
        return "Step::Receive { %s, receiver: %s, msg: %d }" % (
            place, text(step.actor, numbers), numbers.of(step.msg))
    args = ", ".join(word(arg, numbers) for arg in step.args)
    return "Step::Send { %s, sender: %s, to: %s, args: &[%s] }" % (
        place, text(step.actor, numbers), text(step.to, numbers), args)


def cases(peer, source):
    """The cases of a text: (title, own, step or None, formula after, formula before)."""
    check, obligations, wp = (importlib.import_module(peer + "." + part) for part in ("check", "obligations", "wp"))
    out, made = [], []
    before, first = wp.Step.before, obligations.at_init

    def noted_before(step, after):
        made.append((step, after, before(step, after)))
        return made[-1][2]

    def noted_first(d, own, formula):
        made.append((None, formula, first(d, own, formula)))
        return made[-1][2]

    wp.Step.before, obligations.at_init = noted_before, noted_first
    try:
        _, d = check.read_bytes(source.encode())
        for duty in obligations.duties(d):
            made.clear()
            sequent = obligations.build(d, duty)
            own = d.protocols.index(sequent.own) if sequent.own is not None else None
            out += [(obligations.name_of(d, duty), own) + one for one in made if one[1] is not one[2]]
    finally:
        wp.Step.before, obligations.at_init = before, first
    return out


def main():
    options = argparse.ArgumentParser(description=__doc__.splitlines()[0])
    options.add_argument("--peer", required=True)
    peer = options.parse_args().peer
    reserved = importlib.import_module(peer + ".decls").RESERVED
    rows = []
    for name in EXAMPLES:
        with open(os.path.join(TEXTS, name + ".disel")) as lines:
            source = lines.read()
        numbers = Numbers(reserved, source)
        for title, own, step, after, made in cases(peer, source):
            rows.append("    Case {\n        name: \"%s\",\n        example: Example::%s,\n        own: %s,\n        step: %s,\n"
                        "        after: %s,\n        before: Some(%s),\n    },\n" % (
                            title, name.capitalize(), "None" if own is None else "Some(%d)" % own,
                            step_text(step, numbers), text(after, numbers), text(made, numbers)))
    sys.stdout.write(HEAD + "#[rattlefmt::skip]\npub(crate) const CASES: [Case; %d] = [\n%s];\n" % (len(rows), "".join(rows)))


if __name__ == "__main__":
    main()
