#!/usr/bin/env python3
"""Times long runs of `disel run --serial`, beside spin's simulation of the same ping and pong.

    python3 bench/pingpong.py [--program PROGRAM] [--times T] [--small]
    python3 bench/pingpong.py --peer PACKAGE

The texts and the reports that they have are those of long_runs.py. A run's report is first compared with its own, and one
that differs ends the script; then it is run T times with its output thrown away, as spin's simulation writes nothing either.
`--peer` compares these reports, of short runs, with those of another reading of the notation (`PACKAGE.cli.mem(words, bytes)`)
and times nothing.

Ping and pong: two nodes exchange 6,000 to 49,500 messages each way, which is what a budget of 100,000 units lets them
(50,000 each way take 100,000 calls, and a loop's ticks besides). A row has the seconds by processor time, the least of T
times; the calls a second, whole and without what a run of no exchange takes; and the most memory. Then spin (Debian's
package, with a C compiler's preprocessor) simulates the same game, in turns with the program: with one exchange in a turn of
the loops, and with a hundred. What spin does is counted by what it prints of a run with `-p`: all statements, and the sends and
receives among them, which are what a program's calls are. Flood: two nodes send each other so many messages, and then
receive them, under each order. At the limits: 16 nodes send messages with 8 arguments until their budgets are spent. `--small`
leaves out all but short runs. Nothing here is a test: the rows are to be read.
"""
import argparse
import importlib
import itertools
import os
import re
import shutil
import subprocess
import tempfile

import apart
import long_runs
from deep_stack import run_deep

BUDGET = 100_000
EXCHANGES = [6_000, 12_000, 24_000, 48_000, 49_500]
ONE_A_TURN = 24_900
FLOODS = [6_000, 12_000, 24_000, 48_000]
ORDERS = ["oldest", "newest", "seed:1"]


class Took:
    """What a process took."""

    def __init__(self, seconds, memory):
        self.seconds, self.memory = seconds, memory


def process(words, text, out):
    """Runs the words with the text as standard input; writes what they write into the file."""
    with tempfile.TemporaryFile() as source:
        source.write(text.encode())
        source.seek(0)
        started = subprocess.Popen(words, stdin=source, stdout=out, stderr=subprocess.DEVNULL)
        _, status, used = os.wait4(started.pid, 0)
        started.returncode = os.waitstatus_to_exitcode(status)
    return started.returncode, Took(used.ru_utime + used.ru_stime, used.ru_maxrss / 1024)


def same(out, report):
    """Whether the file has exactly these lines."""
    out.seek(0)
    return all(line == wanted for line, wanted in
               itertools.zip_longest(out, (wanted.encode() for wanted in report)))


def checked(options, words, text, report, status):
    """Ends the script unless a run writes this report and ends with this status."""
    with tempfile.TemporaryFile() as out:
        ended, _ = process(command(options, words), text, out)
        if ended != status or not same(out, report()):
            raise SystemExit("`%s` ends with %s, or its report isn't the one of long_runs.py" % (" ".join(words), ended))


def command(options, words):
    return [options.program, "run", "--serial"] + words


def least(options, take):
    """The least of what so many calls of `take` took."""
    return min((take() for _ in range(options.times)), key=lambda took: took.seconds)


def unkept(words, text):
    """What a process takes whose output goes nowhere: the file system's part isn't the program's."""
    return process(words, text, subprocess.DEVNULL)[1]


def run(options, words, text, report, status):
    """The least that a run takes, after one whose report and status are compared."""
    checked(options, words, text, report, status)
    return least(options, lambda: unkept(command(options, words), text))


def row(name, count, calls, took, start):
    net = max(took.seconds - start.seconds, 1e-4)
    print("%-16s %7d %8.3f s %9.0f calls a second, %9.0f without the start; %6.0f MB" % (
        name, count, took.seconds, calls / took.seconds, calls / net, took.memory), flush=True)


def games(options):
    """The rows of ping and pong."""
    words = ["--budget", str(BUDGET)]
    start = run(options, words, long_runs.pingpong(0), lambda: long_runs.pingpong_report(0, BUDGET), 0)
    for count in EXCHANGES[:1] if options.small else EXCHANGES:
        took = run(options, words, long_runs.pingpong(count), lambda: long_runs.pingpong_report(count, BUDGET), 0)
        row("ping and pong", count, 4 * count, took, start)


def floods(options):
    for order in ORDERS:
        words = ["--budget", str(BUDGET), "--order", order]
        start = run(options, words, long_runs.flood(0), lambda: flood_of_none(order), 0)
        for count in FLOODS[:1] if options.small else FLOODS:
            took = run(options, words, long_runs.flood(count), lambda: long_runs.flood_report(count, BUDGET, order), 0)
            row("flood " + order, count, 4 * count, took, start)


def flood_of_none(order):
    return long_runs.flood_report(0, BUDGET, order)


def limits(options):
    """The row of a run at the limits."""
    for budget in [2_000] if options.small else [25_000, 50_000, BUDGET]:
        took = run(options, ["--budget", str(budget)], long_runs.limits(), lambda: long_runs.limits_report(budget), 6)
        calls = sum(1 for _ in long_runs.limits_report(budget)) - 1 - len(long_runs.LIMIT_NODES)
        row("at the limits", budget, calls, took, Took(0, 0))


class Told:
    """What spin tells of in a simulation: all statements, and the sends and receives among them."""

    def __init__(self, lines):
        self.all = len(lines)
        self.calls = sum(1 for line in lines if re.search(r"\[p[io]ng[!?]", line))


def told(folder, exchanges, a_turn):
    """What spin tells of a simulation, without the jumps back that it adds to a loop."""
    with tempfile.TemporaryFile() as out:
        status, _ = process(simulation(folder, exchanges, a_turn, "-p"), "", out)
        out.seek(0)
        said = out.read().decode()
    if status != 0:
        raise SystemExit("spin ends with %d: %s" % (status, said[-300:]))
    return Told([line for line in said.splitlines()
                 if re.match(r"\s*\d+:\s+proc", line) and "terminates" not in line and "[.(goto)]" not in line])


def simulation(folder, exchanges, a_turn, *options):
    """The words of a simulation of the game."""
    name = os.path.join(folder, "game.pml")
    with open(name, "w") as model:
        model.write(long_runs.promela(exchanges, a_turn))
    return ["spin", "-n1", *options, name]


def beside_spin(options, name, count, a_turn, in_spins):
    """The rates of the program and of spin, which take turns at the same game."""
    words, text = ["--budget", str(BUDGET)], long_runs.pingpong(count, a_turn)
    checked(options, words, text, lambda: long_runs.pingpong_report(count, BUDGET, a_turn), 0)
    with tempfile.TemporaryDirectory() as folder:
        tells = told(folder, count, in_spins)
        theirs = simulation(folder, count, in_spins)
        turns = [(unkept(command(options, words), text), unkept(theirs, "")) for _ in range(options.times)]
    took, spin = (min(took.seconds for took in each) for each in zip(*turns))
    steps = 2 * long_runs.units(count, a_turn)
    print("%s, %d each way" % (name, count))
    print("  program %8.3f s %9.0f calls %18.0f ticks and calls a second" % (took, 4 * count / took, steps / took))
    print("  spin    %8.3f s %9.0f sends and receives %6.0f statements a second" % (spin, tells.calls / spin, tells.all / spin))
    print("  the program beside spin: %.2f of sends and receives, %.2f of all steps" % (
        4 * count * spin / took / tells.calls, steps * spin / took / tells.all), flush=True)


def games_beside_spin(options):
    """The game with one exchange in a turn of the loops, and with a hundred."""
    if not shutil.which("spin"):
        print("spin isn't here")
        return
    most, small = EXCHANGES[-1], EXCHANGES[0]
    beside_spin(options, "one exchange a turn in both", small if options.small else ONE_A_TURN, 1, 1)
    beside_spin(options, "a hundred a turn in both", small if options.small else most, long_runs.IN_A_TURN, long_runs.IN_A_TURN)
    beside_spin(options, "a hundred a turn, and one in spin's", small if options.small else most, long_runs.IN_A_TURN, 1)


def short_reports():
    """Short runs: a name, the words, the text and the report."""
    for count in (0, 100, 200):
        yield "ping and pong", ["--budget", "5000"], long_runs.pingpong(count), long_runs.pingpong_report(count, 5000)
        for order in ORDERS + ["seed:%d" % ((1 << 64) - 1)]:
            words = ["--budget", "5000", "--order", order]
            yield "flood " + order, words, long_runs.flood(count), long_runs.flood_report(count, 5000, order)
    for budget in (1, 900, 1001, 1003):
        yield "limits", ["--budget", str(budget)], long_runs.limits(), long_runs.limits_report(budget)


def compared(peer):
    """Prints whether each short report is that of the other reading."""
    mem = importlib.import_module(peer + ".cli").mem
    for name, words, text, report in short_reports():
        status, wanted = mem(["run", "--serial"] + words, text.encode())
        is_same = wanted == "".join(report).encode() and status == (6 if name == "limits" else 0)
        print("%-24s %-40s %s" % (name, " ".join(words), "the same" if is_same else "DIFFERS: %r" % wanted[:200]), flush=True)


def main():
    options = argparse.ArgumentParser(description="times long runs beside spin")
    options.add_argument("--program", default=apart.PROGRAM)
    options.add_argument("--peer")
    options.add_argument("--times", type=int, default=5)
    options.add_argument("--small", action="store_true")
    options = options.parse_args()
    if options.peer:
        run_deep(compared, options.peer)
        return
    games(options)
    games_beside_spin(options)
    floods(options)
    limits(options)


if __name__ == "__main__":
    main()
