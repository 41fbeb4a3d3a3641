#!/usr/bin/env python3
"""Compares `disel check` with another reading of the notation on texts that are mutated from examples.

    python3 bench/differ.py --peer PACKAGE [--program PROGRAM] [--runs R [--alone]] [--count N] [--first I] [--seed S]
        [--jobs J] [FILE ..]

PACKAGE is such a reading, an independent one: a Python package on PYTHONPATH with the submodule `cli`, whose
`mem(words, bytes)` answers a status and the bytes that are written. Each FILE is a text to begin from. A case is one of
them, changed as mutations.py does, or, in one case of four where it has programs, as variants.py does. The program answers
each text in a process of its own. A line is printed for each text to which the two answer otherwise, and last how many
texts of each first answer were tried. `--first I --count 1` makes one case again.

With `--runs R` each accepted text that isn't one of the first ones again, in another layout, is also run: so many random
runs of PACKAGE's submodule `soundness`, whose `run_safe(file, rng, events, text)` prints an unsafe one and puts it into its
list `BAD`. Then the sum has the runs and how many were unsafe. With `--alone` no program is asked. Nothing here is a test
of the gate.
"""
import argparse

import apart
import variants
from deep_stack import run_deep
from mutations import mutated

EVENTS = 40


def case(options, number):
    """The text of a case; the first ones are the files."""
    begun = apart.texts(options)
    if number < len(begun):
        return begun[number].encode("latin-1")
    rng = apart.dice(options, number)
    with_programs = [text for text in begun if variants.of_head(text, "proc")]
    if with_programs and rng.random() < 0.25:
        return variants.variant(with_programs, rng)
    return mutated(begun, rng)


def first(line):
    """The answer's first words, which tell its kind."""
    return b" ".join(line.split(b" ")[:3 if line.startswith(b"refused") else 1]).decode("latin-1").strip()


def shown(options, data):
    """An accepted text in its one layout."""
    return apart.wanted(options, ["show"], data)[1]


def unsafe_runs(options, number, data):
    """How many of the random runs of an accepted text are unsafe."""
    soundness = apart.module(options, "soundness")
    _, file = apart.module(options, "check").read_bytes(data)
    rng, before = apart.dice(options, "runs of %d" % number), len(soundness.BAD)
    for _ in range(options.runs):
        soundness.run_safe(file, rng, EVENTS, data.decode("latin-1"))
    return len(soundness.BAD) - before


def compared(options, number, said, counts):
    """One case, and its counts."""
    data = case(options, number)
    status, text = apart.wanted(options, ["check"], data)
    counts["answers", first(text)] += 1
    if not options.alone:
        pair = apart.given(options, ["check"], data), (status, text)
        if pair[0] != pair[1]:
            counts["differ"] += 1
            said.append(apart.differs(options, number, ["check"], data, pair))
    if status == 0 and options.runs and shown(options, data) not in options.known:
        unsafe = unsafe_runs(options, number, data)
        counts.update({"texts that were run": 1, "runs": options.runs, "unsafe": unsafe})
        if unsafe:
            said.append("case %d of seed %d has %d unsafe runs" % (number, options.seed, unsafe))


def begun_from(options):
    """The files in their one layout, where they are accepted."""
    return {shown(options, text.encode("latin-1")) for text in apart.texts(options)}


def main():
    options = argparse.ArgumentParser(description="compares check with another reading of the notation")
    apart.add_options(options, 10_000)
    options.add_argument("--runs", type=int, default=0)
    options.add_argument("--alone", action="store_true")
    options = options.parse_args()
    options.known = run_deep(begun_from, options) if options.runs else set()
    counts = apart.all_cases(compared, options)
    for key, count in sorted((key[1], count) for key, count in counts.items() if key[0] == "answers"):
        print("  %7d %s" % (count, key))
    print("texts %d" % options.count + ("" if options.alone else " differ %d" % counts["differ"]))
    if options.runs:
        print("texts that were run %(texts that were run)d runs %(runs)d unsafe %(unsafe)d" % counts)


if __name__ == "__main__":
    main()
