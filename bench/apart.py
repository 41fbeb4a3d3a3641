"""Numbered cases, some at a time, in processes of their own, and what a program and a reference answer to a text.

A process ends after its few cases, so what a reference keeps of them in memory goes with it. What a case is depends on its
number and a seed alone, so each can be made again by itself.
"""
import collections
import functools
import importlib
import multiprocessing
import os
import random
import subprocess

from deep_stack import run_deep

HERE = os.path.dirname(os.path.abspath(__file__))
PROGRAM = os.path.join(HERE, "../crates/disel/out/disel")
EXAMPLES = os.path.join(HERE, "../examples/programs")
AT_ONCE = 50
MOST_SECONDS = 120


def add_options(options, count):
    """The options that such scripts have in common, where so many cases are tried."""
    options.add_argument("--peer", required=True, help="the package of the reference")
    options.add_argument("--program", default=PROGRAM)
    options.add_argument("--count", type=int, default=count)
    options.add_argument("--first", type=int, default=0, help="the number of the first case")
    options.add_argument("--seed", type=int, default=1)
    options.add_argument("--jobs", type=int, default=os.cpu_count())
    options.add_argument("files", nargs="*", help="texts to begin from, by default those of examples/programs")


def texts(options):
    """The texts to begin from."""
    names = options.files or [os.path.join(EXAMPLES, name) for name in sorted(os.listdir(EXAMPLES))
                              if name.endswith(".disel")]
    return [open(name, encoding="latin-1").read() for name in names]


def dice(options, number):
    """The random numbers of a case."""
    return random.Random("%d/%s" % (options.seed, number))


def module(options, name):
    """A module of the reference."""
    return importlib.import_module(options.peer + "." + name)


def wanted(options, words, data):
    """The status and the bytes of the reference."""
    return tuple(module(options, "cli").mem(words, data))


def given(options, words, data):
    """The status and the bytes of the program."""
    try:
        done = subprocess.run([options.program] + words, input=data, stdout=subprocess.PIPE, stderr=subprocess.DEVNULL,
                              timeout=MOST_SECONDS)
    except subprocess.TimeoutExpired:
        return "no answer in %d seconds" % MOST_SECONDS, b""
    return done.returncode, done.stdout


def differs(options, number, words, data, pair):
    """Keeps a text to which the two answer otherwise, and what is to be printed of it."""
    name = "differs-%d-%d.disel" % (options.seed, number)
    with open(name, "wb") as out:
        out.write(data)
    shown = ["%s: %s %r" % (who, status, text[:300]) for who, (status, text) in zip(("program", "peer"), pair)]
    return "case %d of seed %d differs, `%s` of %s: %s" % (number, options.seed, " ".join(words), name, "; ".join(shown))


def some(work, options, numbers):
    """What the work says and counts of these cases."""
    said, counts = [], collections.Counter()
    for number in numbers:
        work(options, number, said, counts)
    return said, counts


def all_cases(work, options):
    """Calls `work(options, number, said, counts)` for each case; prints what is put into `said`, answers the counts."""
    last, counts = options.first + options.count, collections.Counter()
    pieces = [range(at, min(at + AT_ONCE, last)) for at in range(options.first, last, AT_ONCE)]
    module(options, "cli")
    with multiprocessing.get_context("fork").Pool(options.jobs, maxtasksperchild=1) as pool:
        for said, found in pool.imap(functools.partial(run_deep, some, work, options), pieces, chunksize=1):
            for line in said:
                print(line, flush=True)
            counts.update(found)
    return counts
