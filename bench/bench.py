#!/usr/bin/env python3
"""Times `disel check` on texts of 64 KiB to 1 MiB.

    python3 bench/bench.py [PROGRAM]

PROGRAM is the built program, by default crates/disel/out/disel (`rt run` or `rt ci` builds it). Each
kind of text is made in five sizes, each twice the one before. A row has the bytes per second at the
largest size, the seconds at each size, and the greatest growth of the time for a doubling, from 64
KiB on, where the time of an empty text, which is that of starting a program, is taken off. The best of five runs counts. On a machine that does other work too, times of a few
milliseconds say little of growth. Nothing here is a test: the rows are to be read.
"""
import os
import subprocess
import sys
import time

HERE = os.path.dirname(os.path.abspath(__file__))
SIZES = [1 << k for k in range(16, 21)]
RUNS = 5

HEAD = """(disel 1
  (nodes a)
  (protocol count
    (field n int 0)
    (tag inc () (send true (set n (+ (get self n me) 1)))))
  (label LABEL count)
  (world w (labels LABEL) (hooks))
"""
INVARIANT = "  (invariant pos w (all x (<= 0 %s)))\n  (deploy w)\n"
START = "  (proof (step pos LABEL inc send) (names s d)\n    (open k (inst pos k hk (inst pos s hs\n"
FIRST = "  (proof (init pos) (names) (open f (linear (goal))))\n"
LEAF = "(decide (= k s) z (reduce z goal (linear (add (1 (goal)) (1 (use hs))))) " \
       "(reduce z goal (linear (add (1 (goal)) (1 (use hk))))))"
READ = "(get LABEL n x)"


def counter(script=LEAF, value=READ, first="", label="c"):
    """The counter file with this script inside its three first rules, and further proofs before it."""
    text = HEAD + INVARIANT % value + first + START + script + "))))\n)\n"
    return text.replace("LABEL", label)


def padded(text, size, filler):
    """The text with a comment in front, so that it has this many bytes."""
    room = size - len(text) - 2
    return ";" + filler * room + "\n" + text if room >= 0 else text


def comment(size):
    """One long comment before the counter file."""
    return padded(counter(), size, "x")


def blanks(size):
    """Short lines of blanks and comments before the counter file."""
    text = counter()
    return "; a line\n   \n" * ((size - len(text)) // 13) + text


def deep(size):
    """Lists 199 deep, one after another, in one list."""
    one = "(" * 199 + ")" * 199
    return "(" + one * ((size - 2) // len(one)) + ")"


def symbols(size):
    """Many names, each another one."""
    out, length, k = ["(disel"], 7, 0
    while length < size - 16:
        word = "name%d" % k
        out.append(word)
        length += len(word) + 1
        k += 1
    return " ".join(out) + ")"


def numbers(size):
    """Many numbers."""
    return "(" + "-9223372036854775808 1 " * ((size - 2) // 23) + ")"


def branches(size):
    """A script that decides over and over: thousands of certificates, accepted."""
    def script(depth):
        if depth == 0:
            return LEAF
        part = script(depth - 1)
        return "(decide (= k s) q%d %s %s)" % (depth, part, part)
    depth, text = 0, counter()
    while len(counter(script(depth + 1))) <= size:
        depth += 1
        text = counter(script(depth))
    return padded(text, size, "x")


def balanced(parts):
    """A sum of so many reads, nested as little as can be."""
    if parts == 1:
        return READ
    return "(+ %s %s)" % (balanced(parts // 2), balanced(parts - parts // 2))


def formula(size):
    """One invariant over a long sum, proved at first and for its step, accepted. A label's name of eleven letters
    leaves the step's sequents with fewer than 1,000,000 parts, 19 for each read, at the largest size too."""
    label = "all_counted"
    empty = len(counter(value="", first=FIRST, label=label))
    parts = max(1, (size - empty) // len("(+  )" + READ.replace("LABEL", label)))
    return padded(counter(value=balanced(parts), first=FIRST, label=label), size, "x")


def certificate(size):
    """One certificate that adds thousands of multiples, accepted."""
    part = "(0 (use hs)) "
    count = (size - len(counter())) // len(part)
    leaf = "(decide (= k s) z (reduce z goal (linear (add %s(1 (goal)) (1 (use hs))))) " \
           "(reduce z goal (linear (add (1 (goal)) (1 (use hk))))))" % (part * count)
    return padded(counter(leaf), size, "x")


KINDS = [comment, blanks, deep, symbols, numbers, branches, formula, certificate]


def seconds(program, text):
    """The best time of a run, and what it wrote."""
    best, line = None, b""
    for _ in range(RUNS):
        start = time.perf_counter()
        done = subprocess.run([program, "check"], input=text, stdout=subprocess.PIPE)
        took = time.perf_counter() - start
        line = done.stdout
        best = took if best is None else min(best, took)
    return best, line.decode().strip()


def main():
    program = sys.argv[1] if len(sys.argv) > 1 else os.path.join(HERE, "../crates/disel/out/disel")
    start, _ = seconds(program, b"")
    print("a start alone takes %.4f s" % start)
    print("%-12s %9s %8s  %s" % ("kind", "MB/s", "growth", "seconds, 64 KiB to 1 MiB; the last answer"))
    for kind in KINDS:
        times, last, length = [], "", 0
        for size in SIZES:
            text = kind(size).encode()
            took, last = seconds(program, text)
            times.append(took)
            length = len(text)
        net = [max(took - start, 1e-4) for took in times]
        growth = max(after / before for before, after in zip(net, net[1:]))
        rate = length / times[-1] / 1e6
        row = " ".join("%.4f" % took for took in times)
        print("%-12s %9.1f %8.2f  %s; %s" % (kind.__name__, rate, growth, row, last[:60]))


if __name__ == "__main__":
    main()
