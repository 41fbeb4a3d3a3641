#!/usr/bin/env python3
"""Times `disel check` on files with more and more obligations.

    python3 bench/obligations.py [PROGRAM]

PROGRAM is the built program, by default crates/disel/out/disel. Each file has 16 labels, each of a protocol of its
own with so many tags, and 8 to 64 invariants, each of one label, with a proof for each send of that label. A row has
the tags of a protocol, the invariants, the bytes of the text, the least of five times, and the answer. Nothing here is
a test: the rows are to be read.
"""
import os
import subprocess
import sys
import time

HERE = os.path.dirname(os.path.abspath(__file__))
LABELS = 16
RUNS = 5
TAG = "(tag t%d () (send true (set n 1)) (receive true))"
PROOF = "  (proof (step i%d l%d t%d send) (names s d) (open k (inst i%d k h (decide (= k s) z " \
        "(reduce z goal (linear (goal))) (reduce z goal (by h))))))"


def label_of(invariant):
    return 1 + (invariant - 1) % LABELS


def text(invariants, tags):
    """A file with so many invariants, and so many tags in each protocol."""
    lines = ["(disel 1", "  (nodes a b)"]
    for label in range(1, LABELS + 1):
        lines.append("  (protocol p%d (field n bool 0) %s)" % (label, " ".join(TAG % tag for tag in range(1, tags + 1))))
        lines.append("  (label l%d p%d)" % (label, label))
    lines.append("  (world w (labels %s) (hooks))" % " ".join("l%d" % label for label in range(1, LABELS + 1)))
    for i in range(1, invariants + 1):
        lines.append("  (invariant i%d w (all x (<= 0 (get l%d n x))))" % (i, label_of(i)))
    lines.append("  (deploy w)")
    for i in range(1, invariants + 1):
        lines += [PROOF % (i, label_of(i), tag, i) for tag in range(1, tags + 1)]
    return "\n".join(lines + [")"]) + "\n"


def timed(program, data):
    """The least time of some runs, in seconds, and the answer."""
    best, answer = None, b""
    for _ in range(RUNS):
        start = time.perf_counter()
        answer = subprocess.run([program, "check"], input=data, stdout=subprocess.PIPE).stdout
        taken = time.perf_counter() - start
        best = taken if best is None else min(best, taken)
    return best, answer.decode().strip()


def main():
    program = sys.argv[1] if len(sys.argv) > 1 else os.path.join(HERE, "../crates/disel/out/disel")
    for tags in (4, 16):
        for invariants in (8, 16, 32, 64):
            data = text(invariants, tags).encode()
            best, answer = timed(program, data)
            print("%3d tags %3d invariants %7d bytes %8.2f ms; %s" % (tags, invariants, len(data), best * 1000, answer))


if __name__ == "__main__":
    main()
