#!/usr/bin/env python3
"""Compares the proof kernel with another reading of the notation on random sequents, scripts and certificates.

    python3 bench/replay_differ.py --peer PACKAGE [--count N] [--hunted N] [--large N] [--deep N] [--seeds S ..]
        [--jobs N] [--kernel FOLDER | --program FILE]

PACKAGE is a Python package of that other reading, on PYTHONPATH, with modules such as `kernel` and `linear`. Where it
isn't there, nothing is compared and the status is 0. For each seed there are `--count` random cases, and `--hunted` ones
that the package's own hunter for unsound rules tries. `--large` cases grow to about 1,000,000 parts, which takes half a
minute each, and `--deep` ones to about 4,000 levels. The cases are made by `--jobs` processes.

The kernel is run by a program that this script puts together in a temporary folder (bench/replayer) and builds once, by
`rt try`: unproved code runs too, and FOLDER may hold another dl_kernel than the repository's. With `--program` a program
that was built before answers. A line is written for each difference, then how often each rule passed and how often each
of its conditions refused it, and which conditions refused nothing (those of rules that the kernel doesn't have, at
least). The status is 1 where an answer differs. Nothing here is a test of the gate.
"""
import argparse
import concurrent.futures
import importlib.util
import random
import sys
import tempfile
import time

import replayer
from answered import Cases, Reference, Tally, unmet
from deep_stack import run_deep
from hunted_cases import Hunt
from random_cases import Maker
from sized_cases import SizedMaker

# How many cases one run of the program answers at most.
MOST_IN_A_RUN = 2_500

# What the hunter's parts have of its cases.
SHARES = {"kernel": 0.7, "linear": 0.2, "found": 0.1}


def declarations(ref, rng):
    """The declarations of a random file in the notation's first version."""
    while True:
        d = ref.soundness.readable(ref.randfile.G(rng, 1).file())
        if not isinstance(d, ref.tree.Fault):
            return d


def add_random(rng, maker, cases):
    """One more case of a random kind."""
    r = rng.random()
    if r < 0.04:
        cases.clean(maker.spoiled())
    elif r < 0.15:
        cases.plain(maker.plain_sequent())
    elif r < 0.29:
        cases.verify(*maker.rows())
    elif r < 0.35:
        s, script = maker.row_sequent()
        if s.clean():
            cases.replay(s, script)
    else:
        s = maker.sequent()
        cases.replay(s, maker.script(s, rng.choice([0, 2, 4, 6, 8])))


def random_part(ref, rng, cases, count):
    while len(cases.wanted) < count:
        ref.term.purge()
        maker = Maker(ref, rng, declarations(ref, rng))
        for _ in range(20):
            if len(cases.wanted) < count:
                add_random(rng, maker, cases)


def sized_part(ref, rng, cases, count, kind):
    """Cases of a kind of `SizedMaker`."""
    for _ in range(count):
        ref.term.purge()
        cases.replay(*getattr(SizedMaker(ref, rng, declarations(ref, rng)), kind)())


def hunted_part(ref, rng, cases, count):
    """Cases of the hunter, and how many violations it found."""
    hunt = Hunt(ref, rng, cases)
    found = sum(hunt.part(name, int(count * share)) for name, share in SHARES.items())
    if found:
        print(hunt.said.getvalue())
    return found


def made(peer, name, kind, count):
    """So many cases of a kind: their text, the answers that are wanted, the tally, and how many violations were found."""
    ref, rng = Reference(peer), random.Random(name)
    cases, violations = Cases(ref), 0
    if kind == "random":
        random_part(ref, rng, cases, count)
    elif kind == "hunted":
        violations = hunted_part(ref, rng, cases, count)
    else:
        sized_part(ref, rng, cases, count, kind)
    return cases.text(), cases.wanted, cases.tally, violations


def made_deep(arguments):
    return run_deep(made, *arguments)


def parts(options):
    """What is made by itself: (package, name, kind, count)."""
    for seed in options.seeds:
        for kind in ("random", "hunted", "large", "deep"):
            left, most = options.__dict__[kind], MOST_IN_A_RUN if kind in ("random", "hunted") else 20
            for number in range(-(-left // most)):
                yield options.peer, "%s-%d-%d" % (kind, seed, number), kind, min(most, left - number * most)


def compare(name, text, wanted, given):
    """Prints each difference, and answers how many there are."""
    lines = [line for line in text.split("\n") if line.strip() and line.split()[0] != "instances"]
    differ = abs(len(given) - len(wanted))
    if differ:
        print("%s: answers %d, cases %d" % (name, len(given), len(wanted)))
    for number, (line, peer, mine) in enumerate(zip(lines, wanted, given)):
        if peer != mine:
            differ += 1
            print("differs: %s, case %d, peer %s, kernel %s\n  %s" % (name, number, peer, mine, line[:4000]))
    return differ


def answers(options, texts):
    """The kernel's lines for each text."""
    if options.program:
        return {name: replayer.built(options.program, text) for name, text in texts.items()}
    with tempfile.TemporaryDirectory(prefix="replayer-") as folder:
        return replayer.tried(replayer.put_together(folder, "replayer", options.kernel), texts)


def compared(options):
    """Makes the cases, runs the kernel on them, and prints what came of it. How many answers differ."""
    start, tally, differ, violations = time.time(), Tally(), 0, 0
    listed = list(parts(options))
    with concurrent.futures.ProcessPoolExecutor(options.jobs) as pool:
        done = dict(zip([name for _, name, _, _ in listed], pool.map(made_deep, listed)))
    middle = time.time()
    given = answers(options, {name: text for name, (text, _, _, _) in done.items()})
    for name, (text, wanted, counted, found) in done.items():
        differ += compare(name, text, wanted, given.get(name, []))
        tally.add(counted)
        violations += found
    print("\n".join(tally.lines()))
    print("conditions that refused nothing:", "; ".join(unmet(Reference(options.peer), tally)))
    cases = sum(len(wanted) for _, wanted, _, _ in done.values())
    print("cases %d differ %d; violations that the hunter found %d" % (cases, differ, violations))
    print("made in %.0f s, built and answered in %.0f s" % (middle - start, time.time() - middle))
    return differ


def main():
    options = argparse.ArgumentParser(description="compares the proof kernel with another reading of the notation")
    options.add_argument("--peer", required=True)
    options.add_argument("--count", dest="random", type=int, default=20_000)
    options.add_argument("--hunted", type=int, default=5_000)
    options.add_argument("--large", type=int, default=5)
    options.add_argument("--deep", type=int, default=0)
    options.add_argument("--seeds", type=int, nargs="+", default=[1])
    options.add_argument("--jobs", type=int, default=1)
    options.add_argument("--kernel")
    options.add_argument("--program")
    options = options.parse_args()
    if importlib.util.find_spec(options.peer) is None:
        print("no package %s: nothing was compared" % options.peer)
        return 0
    return 1 if compared(options) else 0


if __name__ == "__main__":
    sys.exit(main())
