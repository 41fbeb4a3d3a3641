#!/usr/bin/env python3
"""Compares how many proof obligations a second the kernel replays with how many z3 decides, in one run.

    python3 bench/throughput.py [--program FILE] [--jobs N] [--kernel FOLDER] [--text FILE]

The obligations are the steps of a file with 64 invariants on 16 labels: a send sets the sender's number to 1, and each
invariant says of one label that no number is below 0. `--text` writes that file with its proofs.

The kernel replays the scripts in a program that this script puts together (bench/replay_time), proves by so many jobs and
builds as FILE, where it isn't there. Without `--program` it runs with no proof and with checks in the code, and then its
numbers say nothing. z3 gets the same obligations as SMT-LIB, each between a push and a pop, with the quantifier over the
two nodes written out, and once more with the quantifier.

All times are processor times. z3's is that of its process, which reads the text too, less that of one with no query. The
kernel's is that of making each sequent and its script and replaying it, and beside it that of the replay alone. Nothing
here is a test: the rows are to be read.
"""
import argparse
import os
import resource
import shutil
import subprocess
import tempfile

import replayer

INVARIANTS = 64
LABELS = 16
ROUNDS = 100


def label(number):
    """The label of an invariant, both counted from 1."""
    return 1 + (number - 1) % LABELS


def file_text():
    """The file, each of whose proofs is that of one obligation."""
    out = ["(disel 1", "  (nodes a b)"]
    out.append("  (protocol p (field n bool 0) (tag syn () (send true (set n 1)) (receive true)))")
    out += ["  (label l%d p)" % at for at in range(1, LABELS + 1)]
    out.append("  (world w (labels %s) (hooks))" % " ".join("l%d" % at for at in range(1, LABELS + 1)))
    for number in range(1, INVARIANTS + 1):
        out.append("  (invariant i%d w (all x (<= 0 (get l%d n x))))" % (number, label(number)))
    out.append("  (deploy w)")
    for number in range(1, INVARIANTS + 1):
        out.append("  (proof (step i%d l%d syn send) (names s d) (open k (inst i%d k h (decide (= k s) z "
                   "(reduce z goal (linear (goal))) (reduce z goal (by h))))))" % (number, label(number), number))
    return "\n".join(out) + "\n)\n"


def for_nodes(body, quantified):
    """That the body holds of both nodes, as a quantifier or written out."""
    if quantified:
        return "(forall ((x Int)) (=> (and (<= 0 x) (<= x 1)) %s))" % body
    return "(and (let ((x 0)) %s) (let ((x 1)) %s))" % (body, body)


def queries(quantified):
    """The obligations of one round."""
    out = []
    for number in range(1, INVARIANTS + 1):
        out.append("(push)")
        for earlier in range(1, number + 1):
            out.append("(assert %s)" % for_nodes("(<= 0 (l%d x))" % label(earlier), quantified))
        after = "(<= 0 (ite (= x s) 1 (l%d x)))" % label(number)
        out.append("(assert (not %s))" % for_nodes(after, quantified))
        out.append("(check-sat)")
        out.append("(pop)")
    return "\n".join(out) + "\n"


def smt(rounds, quantified):
    out = ["(declare-fun l%d (Int) Int)" % at for at in range(1, LABELS + 1)]
    out += ["(declare-const s Int)", "(declare-const d Int)"]
    out += ["(assert (and (<= 0 s) (<= s 1)))", "(assert (and (<= 0 d) (<= d 1)))"]
    return "\n".join(out) + "\n" + queries(quantified) * rounds


def children_seconds():
    """The processor time of the processes that have ended."""
    used = resource.getrusage(resource.RUSAGE_CHILDREN)
    return used.ru_utime + used.ru_stime


def z3_seconds(rounds, quantified):
    """The best processor time of three processes with so many rounds."""
    with tempfile.NamedTemporaryFile("w", suffix=".smt2") as file:
        file.write(smt(rounds, quantified))
        file.flush()
        best = None
        for _ in range(3):
            start = children_seconds()
            done = subprocess.run(["z3", file.name], stdout=subprocess.PIPE)
            took = children_seconds() - start
            answers = done.stdout.split()
            if answers != [b"unsat"] * (rounds * INVARIANTS):
                raise SystemExit("z3 answers otherwise: %r" % answers[:3])
            best = took if best is None else min(best, took)
    return best


def z3_rate(quantified):
    rounds = 10
    return rounds * INVARIANTS / (z3_seconds(rounds, quantified) - z3_seconds(0, quantified))


def kernel_program(options):
    """The program of bench/replay_time, proved and built where it isn't there yet."""
    if not os.path.exists(options.program):
        with tempfile.TemporaryDirectory(prefix="replay_time-") as folder:
            program = replayer.put_together(folder, "replay_time", options.kernel, with_work=True)
            shutil.copy(replayer.proved(program, options.jobs), options.program)
    return options.program


def kernel_said(options):
    """What the program writes of one run."""
    if options.program:
        return replayer.built(kernel_program(options))
    with tempfile.TemporaryDirectory(prefix="replay_time-") as folder:
        return replayer.tried(replayer.put_together(folder, "replay_time", options.kernel), {"once": ""})["once"]


def kernel_rates(options):
    """Obligations per second: made and replayed, and replayed alone."""
    said = kernel_said(options)
    words = said[0].split()
    numbers = dict(zip(words[::2], map(int, words[1::2])))
    count = ROUNDS * INVARIANTS
    if numbers["proved"] != count or numbers["made"] != count:
        raise SystemExit("not all are proved: %s" % said[0])
    return count / numbers["whole"] * 1e6, count / (numbers["whole"] - numbers["making"]) * 1e6


def z3_version():
    return subprocess.run(["z3", "--version"], stdout=subprocess.PIPE).stdout.decode().strip()


def main():
    options = argparse.ArgumentParser(description="obligations a second beside z3")
    options.add_argument("--program")
    options.add_argument("--jobs", type=int, default=1)
    options.add_argument("--kernel")
    options.add_argument("--text")
    options = options.parse_args()
    if options.text:
        with open(options.text, "w") as out:
            out.write(file_text())
        return
    whole, alone = kernel_rates(options)
    print("kernel, made and replayed: %10.0f a second%s" % (whole, "" if options.program else " (with checks in the code)"))
    print("kernel, replayed alone:    %10.0f a second" % alone)
    print(z3_version())
    for quantified in (False, True):
        rate = z3_rate(quantified)
        name = "with the quantifier" if quantified else "written out"
        print("z3, %-19s    %10.0f a second; the kernel's rate is %.1f times that" % (name + ":", rate, whole / rate))


if __name__ == "__main__":
    main()
