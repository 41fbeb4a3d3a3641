#!/usr/bin/env python3
"""Compares `disel run --serial` with another reading of the notation on random runs, or tells how such runs are spread.

    python3 bench/runs.py --peer PACKAGE [--program PROGRAM] [--spread] [--count N] [--first I] [--seed S] [--jobs J] [FILE ..]

PACKAGE is such a reading: a Python package on PYTHONPATH with the submodules `cli`, whose `mem(words, bytes)` answers a
status and the bytes that are written, and `randfile`, whose `G(rng, version).file()` makes a random file. A case is a file
and the options of a run: any order of delivery, and a budget of 1 to 5,000. Most files are of loose.py, which are accepted,
or of variants.py, which mostly are, made of each FILE; the others are random or mutated texts, most of which are refused.

A line is printed for each case whose status or bytes differ, with its number, and its text is kept. `--first I --count 1`
makes one case again. At the end come the cases of each kind and answer, and how many of the runs had what.

With `--spread` no program is run, and each accepted run is made under another order too: it then says in how many of the
runs the order matters.
"""
import argparse
import math
import re

import apart
import loose
import variants
from mutations import mutated

MOST_BUDGET = 5000
# A run that leaves so many messages behind in so many units gets no large budget: a plain reading looks through all of them
# at each call.
TRIED_BUDGET, MOST_LEFT = 200, 60
ORDERS = ["oldest", "newest", "seed"]
END = re.compile(rb"^end \S+ (\w+)", re.M)
ENTRY = re.compile(rb"^\d+ (\S+) (\d+) (send|await|poll|read) (\S+)(?: (\S+))?.* -> (\S+)(?: from (\S+))?", re.M)


def file_of(options, rng):
    """The kind of a file, and its bytes."""
    kind = rng.random()
    if kind < 0.6:
        return "loose", loose.file(rng).encode()
    if kind < 0.88:
        return "variant", variants.variant(apart.texts(options), rng)
    if kind < 0.94:
        return "random", apart.module(options, "randfile").G(rng, 1).file().encode()
    return "mutated", mutated(apart.texts(options), rng)


def left(report):
    """How many messages of a run nobody has received."""
    return report.count(b" send ") - report.count(b" from ")


def words_of(options, rng, data):
    """The words of a run of this text."""
    budget = int(math.exp(max(rng.random(), rng.random()) * math.log(MOST_BUDGET + 1)))
    if budget > TRIED_BUDGET:
        _, report = apart.wanted(options, ["run", "--serial", "--budget", str(TRIED_BUDGET)], data)
        if left(report) > MOST_LEFT:
            budget = rng.randint(1, 2 * TRIED_BUDGET)
    order = rng.choice(ORDERS)
    if order == "seed":
        order = "seed:%d" % rng.choice([0, 1, rng.getrandbits(64), rng.getrandbits(8), (1 << 64) - 1])
    pairs = [["--serial"]]
    if rng.random() < 0.95:
        pairs.append(["--budget", str(budget)])
    if order != "oldest" or rng.random() < 0.5:
        pairs.append(["--order", order])
    rng.shuffle(pairs)
    return ["run"] + sum(pairs, [])


def case(options, number):
    """The kind, the words and the text of a case."""
    rng = apart.dice(options, number)
    kind, data = file_of(options, rng)
    return kind, words_of(options, rng, data), data


def met(report):
    """What a report shows of its run."""
    out = {"an end that is " + end.decode() for end in END.findall(report)}
    out.add("several ends" if len(out) > 1 else "one kind of end")
    entries = ENTRY.findall(report)
    for node, ticks, call, _, to, reply, sender in entries:
        if node == (to if call == b"send" else sender):
            out.add("a message to oneself" + (", received" if sender else ""))
        if call == b"poll":
            out.add("a poll that misses" if reply == b"miss" else "a poll that gets one")
        if call == b"await":
            out.add("an await that gets one")
        if call == b"read":
            out.add("a read" + (" of a row" if to else ""))
        if int(ticks) > 0:
            out.add("ticks before a call")
    out.add("no entry" if not entries else "1 to 9 entries" if len(entries) < 10 else
            "10 to 99 entries" if len(entries) < 100 else "100 to 999 entries" if len(entries) < 1000 else "1,000 entries or more")
    return out


def other_order(words):
    """The same run under another order."""
    if "--order" not in words:
        return words + ["--order", "newest"]
    at = words.index("--order") + 1
    return words[:at] + ["newest" if words[at] == "oldest" else "oldest"] + words[at + 1:]


def entries(report):
    return report.split(b"\n", 1)[1]


def answer_of(status, text):
    """The kind of an answer."""
    return " ".join(text.decode("latin-1").split()[:3]) if status == 1 else "status %s" % status


def compared(options, number, said, counts):
    """One case, and its counts."""
    kind, words, data = case(options, number)
    status, text = apart.wanted(options, words, data)
    counts["cases", "%s: %s" % (kind, answer_of(status, text))] += 1
    counts["cases", "accepted" if status in (0, 6) else "not accepted"] += 1
    if status in (0, 6):
        counts.update(("runs with", what) for what in met(text))
        if options.spread and entries(apart.wanted(options, other_order(words), data)[1]) != entries(text):
            counts["runs with", "an order that matters"] += 1
    if not options.spread:
        pair = apart.given(options, words, data), (status, text)
        if pair[0] != pair[1]:
            counts["differ"] += 1
            said.append(apart.differs(options, number, words, data, pair))


def main():
    options = argparse.ArgumentParser(description="compares serial runs with another reading of the notation")
    apart.add_options(options, 20_000)
    options.add_argument("--spread", action="store_true")
    options = options.parse_args()
    counts = apart.all_cases(compared, options)
    for about in ("cases", "runs with"):
        print(about + ":")
        for key, count in sorted((key[1], count) for key, count in counts.items() if key[0] == about):
            print("  %7d %s" % (count, key))
    accepted = counts["cases", "accepted"]
    print("cases %d accepted %d" % (options.count, accepted) + ("" if options.spread else " differ %d" % counts["differ"]))


if __name__ == "__main__":
    main()
