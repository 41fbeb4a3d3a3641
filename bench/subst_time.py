#!/usr/bin/env python3
"""Times a substitution by the size of the formula.

    python3 bench/subst_time.py

A small program over dl_subst, whose text is bench/subst_time.rt.txt, is built and run in a copy of the
crates that it needs, in a temporary folder that is removed at the end. It substitutes a variable that
stands at every leaf of a formula of about 10^5 parts, and of one of eight times as many. Two lines have
the parts and the least of five times, and the last the ratio of the times. It may well be more than 8
though the work is 8 times as much, since the larger formula costs more for memory; docs/PERFORMANCE.md
has the instructions that were counted. What was proved of the two crates before is taken over. Nothing
here is a test: the lines are to be read.
"""
import os
import shutil
import subprocess
import sys
import tempfile

HERE = os.path.dirname(os.path.abspath(__file__))
CRATES = {"dl_term": "sqlite_items", "dl_subst": "dl_term sqlite_items", "subst_time": "dl_subst dl_term sqlite_items"}


# What falls in the recursion of the program's sum.
MEASURE = """use Rattle.std.proofs.Common.{ℕ}
use Rattle.subst_time.proofs.+sum.Given as goal

abbrev pub decreases-sum : goal.decreases-sum
decreases-sum l = l.depth
"""


def scratch(folder):
    """The crates and the program in a repository of their own. The program's folder."""
    for crate in ("dl_term", "dl_subst"):
        for part in ("src", "specs", "proofs"):
            shutil.copytree(os.path.join(HERE, "..", "crates", crate, part), os.path.join(folder, "crates", crate, part))
        kept = os.path.join(HERE, "..", "crates", crate, "out")
        if os.path.isdir(kept):
            shutil.copytree(kept, os.path.join(folder, "crates", crate, "out"))
    program = os.path.join(folder, "crates", "subst_time")
    os.makedirs(os.path.join(program, "src"))
    shutil.copy(os.path.join(HERE, "subst_time.rt.txt"), os.path.join(program, "src", "main.rt"))
    os.makedirs(os.path.join(program, "proofs", "+sum"))
    with open(os.path.join(program, "proofs", "+sum", "Invariants.antt"), "w", encoding="utf-8") as measure:
        measure.write(MEASURE)
    with open(os.path.join(folder, "crates.txt"), "w") as lines:
        lines.writelines("%s: %s\n" % crate for crate in CRATES.items())
    return program


def main():
    with tempfile.TemporaryDirectory() as folder:
        run = subprocess.run(["rt", "run"], cwd=scratch(folder), capture_output=True, text=True)
    rows = [line.split() for line in run.stdout.splitlines()]
    rows = [(int(row[0]), int(row[1])) for row in rows if len(row) == 2 and row[0].isdigit() and row[1].isdigit()]
    if len(rows) != 2:
        sys.exit("no times: the program ended with %d\n%s%s" % (run.returncode, run.stdout[-2000:], run.stderr[-2000:]))
    for parts, micros in rows:
        print("%8d parts %9.3f ms" % (parts, micros / 1000))
    print("%.2f times the parts take %.2f times as long" % (rows[1][0] / rows[0][0], rows[1][1] / rows[0][1]))


if __name__ == "__main__":
    main()
