#!/usr/bin/env python3
"""Measures how `disel check` reads texts of 64 KiB to 1 MiB that are mostly declarations.

    python3 bench/reading.py [--others] [--write FOLDER] [PROGRAM]

PROGRAM is the built program, by default crates/disel/out/disel. Each kind of text is made in five sizes, each twice the
one before, and none has an obligation: so what is measured is the reading of the text, of its forms, names and sorts,
and of the file that it means. With `--others` the texts of bench.py are measured too. With `--write` the texts are
written into the folder, each as KIND-BYTES.disel, and nothing is measured: valgrind and others can then be given them.

A kind has two rows, by time and by instructions: what a KiB takes at each size, and the greatest growth for a doubling,
where what an empty text takes is taken off. Instructions are counted by cachegrind, and that row is left out where there
is no valgrind. They hardly differ from run to run, also on a machine that does other work, so they tell how the work
grows. Times are processor times, the least of five runs, and tell besides what memory costs. Nothing here is a test: the
rows are to be read.
"""
import argparse
import os
import re
import resource
import shutil
import subprocess

import bench

SIZES = bench.SIZES
GUARDS = 64 * 16


def deep(levels):
    """A formula that nests so many levels, by turns a denial, a conjunction and a quantifier."""
    head = []
    for level in range(levels):
        if level % 8 == 7:
            head.append("(all x%d " % level)
        else:
            head.append("(and (<= 0 (get self n me)) " if level % 2 else "(not ")
    return "".join(head) + "(< v 999)" + ")" * levels


def file(guards):
    """A file whose protocols have 16 tags each, with a guard for each tag."""
    lines = ["(disel 1", "  (nodes a b)"]
    for first in range(0, len(guards), 16):
        lines.append("  (protocol p%d (field n int 0)" % (first // 16))
        for tag, guard in enumerate(guards[first:first + 16]):
            lines.append("  (tag t%d ((v int)) (send %s (set n v)))" % (tag, guard))
        lines[-1] += ")"
    return "\n".join(lines + ["  (label l p0)", "  (world w (labels l) (hooks))", "  (deploy w)", ")"]) + "\n"


def fitted(size, made):
    """The largest of the texts made of 1, 2 and so on that isn't larger, with a comment that fills it up."""
    low, high = 1, 2
    while len(made(high)) <= size:
        low, high = high, 2 * high
    while high - low > 1:
        middle = (low + high) // 2
        low, high = (middle, high) if len(made(middle)) <= size else (low, middle)
    return bench.padded(made(low), size, "x")


def levelled(levels):
    """A file with 1,024 guards that have so many levels together, as evenly as can be."""
    least, more = divmod(levels, GUARDS)
    return file([deep(least + 1)] * more + [deep(least)] * (GUARDS - more))


def more_protocols(size):
    """More and more protocols, up to 64, with guards of about 1,000 bytes."""
    return fitted(size, lambda tags: file([deep(65)] * tags))


def deeper_guards(size):
    """64 protocols, with guards that nest deeper and deeper."""
    return fitted(size, levelled)


KINDS = [more_protocols, deeper_guards]


def instructions(program, text):
    """The instructions of a run, or None without valgrind."""
    if not shutil.which("valgrind"):
        return None
    words = ["valgrind", "--tool=cachegrind", "--cache-sim=no", "--cachegrind-out-file=" + os.devnull, program, "check"]
    done = subprocess.run(words, input=text, stdout=subprocess.PIPE, stderr=subprocess.PIPE)
    return int(re.search(rb"I +refs: +([0-9,]+)", done.stderr).group(1).replace(b",", b""))


def processor_time(program, text):
    """The least processor time of five runs in microseconds, and what the last one wrote."""
    best, answer = None, b""
    for _ in range(bench.RUNS):
        before = resource.getrusage(resource.RUSAGE_CHILDREN)
        answer = subprocess.run([program, "check"], input=text, stdout=subprocess.PIPE).stdout
        after = resource.getrusage(resource.RUSAGE_CHILDREN)
        took = (after.ru_utime - before.ru_utime + after.ru_stime - before.ru_stime) * 1e6
        best = took if best is None else min(best, took)
    return best, answer.decode().strip()


def row(kind, unit, values, texts, start):
    """Prints what a KiB takes at each size, and the greatest growth for a doubling without what a start takes."""
    net = [max(value - start, 1e-9) for value in values]
    growth = max(after / before for before, after in zip(net, net[1:]))
    each = " ".join("%8.1f" % (value * 1024 / len(text)) for value, text in zip(values, texts))
    print("%-15s %-18s %s  growth %.2f" % (kind, unit, each, growth), flush=True)


def measured(program, kinds):
    """Prints the rows of each kind."""
    start, counted = processor_time(program, b"")[0], instructions(program, b"")
    print("an empty text takes %.0f microseconds and %s instructions" % (start, counted))
    for kind in kinds:
        texts = [kind(size).encode() for size in SIZES]
        times, answers = zip(*[processor_time(program, text) for text in texts])
        row(kind.__name__, "microseconds", times, texts, start)
        if counted is not None:
            row("", "1,000 instructions", [instructions(program, text) / 1000 for text in texts], texts, counted / 1000)
        print("%-15s %s" % ("", answers[-1][:90]), flush=True)


def written(folder, kinds):
    """Writes the texts into the folder."""
    os.makedirs(folder, exist_ok=True)
    for kind in kinds:
        for size in SIZES:
            with open(os.path.join(folder, "%s-%d.disel" % (kind.__name__, size)), "w") as out:
                out.write(kind(size))


def main():
    words = argparse.ArgumentParser()
    words.add_argument("--others", action="store_true")
    words.add_argument("--write")
    words.add_argument("program", nargs="?", default=os.path.join(bench.HERE, "../crates/disel/out/disel"))
    given = words.parse_args()
    kinds = KINDS + (bench.KINDS if given.others else [])
    if given.write:
        written(given.write, kinds)
    else:
        measured(given.program, kinds)


if __name__ == "__main__":
    main()
