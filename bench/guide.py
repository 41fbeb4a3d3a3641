#!/usr/bin/env python3
"""Sees that each text of a guide is answered as the guide says, and each run.

    python3 bench/guide.py [--peer PACKAGE] [--program PROGRAM] [--write] FILE ..

PROGRAM is the built program, by default crates/disel/out/disel; with --peer another reading of the notation answers
instead, a package on PYTHONPATH with a module `cli`. The status is 1 where an answer differs. A FILE is one of these.

A text, whose name ends in .disel: it is to be accepted.

Answers beside a text, NAME.answers beside NAME.disel: commands, each on a line of its own after `$ `, then what it
writes and a line `status N`. With --write the answers are written anew, for the commands that stand there.

A guide, any other FILE. It speaks of one text after the other:

- A block between lines of ``` that begins with `(disel` is the text from there on.
- A block that begins with `(proof` is added to the text before its last line. Every other block in the notation
  stands after a line that ends in `before line N:` or `in place of lines N to M:`, and is put there.
- ``Put `X` in place of `Y`: `LINE`.`` changes the one X that the text has; ``and `X` in place of `Y` `` may follow.
  ``With `X` in place of `Y`: `LINE`.`` does too, for this one answer.
- ``Answer: `LINE`.`` after a block says what `disel check` answers. A text that is answered with rule 32 is for that
  answer alone: then the block is given up.
- ``Run: `WORDS`, status N.`` says how `disel WORDS` answers the text; or `WORDS < PATH` a file of the repository.
  The block after it is what is written.
"""
import argparse
import importlib
import os
import re
import subprocess
import sys

from deep_stack import run_deep

HERE = os.path.dirname(os.path.abspath(__file__))
ROOT = os.path.dirname(HERE)
PAIR = r"`([^`]+)`\s+in\s+place\s+of\s+`([^`]+)`"
PART = re.compile(
    r"^(?P<before>[^\n]*)\n\n```\n(?P<block>.*?)^```\n(?:\nAnswer: `(?P<answer>[^`]*)`)?"
    r"|\b(?P<kept>Put|With)\s+(?P<pairs>%s(?:,?\s+and\s+%s)*):\s+`(?P<line>[^`]+)`" % (PAIR, PAIR), re.M | re.S)
RUN = re.compile(r"Run: `([^`]*)`, status (\d+)\.$")
PLACE = re.compile(r"(?:before line (?P<at>\d+)|in place of lines (?P<first>\d+) to (?P<last>\d+)):$")


def answer_of(program, words, text):
    """The status and what is written, by the program or by the other reading."""
    if not isinstance(program, str):
        status, written = program.mem(words, text.encode())
        return status, written.decode()
    done = subprocess.run([program] + words, input=text.encode(), stdout=subprocess.PIPE)
    return done.returncode, done.stdout.decode()


def file_text(path):
    with open(os.path.join(ROOT, path)) as file:
        return file.read()


def command_answer(program, command, text):
    """The answer to `WORDS`, for the text, or to `WORDS < PATH`."""
    words, _, path = command.partition("<")
    words = [word for word in words.split() if word != "./disel"]
    return answer_of(program, words, file_text(path.strip()) if path else text)


def changed(text, pairs):
    for new, old in re.findall(PAIR, pairs):
        if text.count(old) != 1:
            return None
        text = text.replace(old, new)
    return text


def with_block(text, block, before):
    """The text with a block in it, and None where the guide doesn't say where."""
    lines = text.split("\n")
    place = PLACE.search(before)
    if block.lstrip().startswith("(proof"):
        first = last = len(lines) - 2
    elif place and place.group("at"):
        first = last = int(place.group("at")) - 1
    elif place:
        first, last = int(place.group("first")) - 1, int(place.group("last"))
    else:
        return None
    return "\n".join(lines[:first] + block.rstrip("\n").split("\n") + lines[last:])


def guide_answers(program, guide):
    """Of each part of a guide that is answered: what it is, the answer, and the one that is wanted."""
    text = ""
    for part in PART.finditer(guide):
        line = 1 + guide.count("\n", 0, part.start())
        check = lambda of: "none" if of is None else answer_of(program, ["check"], of)[1].strip()
        if part.group("kept"):
            next_text = changed(text, part.group("pairs"))
            yield "line %d" % line, check(next_text), part.group("line")
            text = next_text if part.group("kept") == "Put" and next_text else text
            continue
        block, before, wanted = part.group("block"), part.group("before"), part.group("answer")
        run = RUN.search(before)
        if run:
            status, written = command_answer(program, run.group(1), text)
            yield "run at line %d" % line, "status %d\n%s" % (status, written), "status %s\n%s" % (run.group(2), block)
        elif wanted:
            next_text = block if block.startswith("(disel") else with_block(text, block, before)
            yield "text at line %d" % line, check(next_text), wanted
            text = text if next_text is None or wanted.startswith("refused 32") else next_text


def beside(program, saved):
    """The answers to the commands of a file of answers, in its form."""
    written = ""
    for command in re.findall(r"^\$ (.*)$", saved, re.M):
        status, answer = command_answer(program, command, "")
        written += "$ %s\n%sstatus %d\n" % (command, answer, status)
    return written


def answers(program, name, write):
    """Of each part of a file: what it is, the answer, and the one that is wanted."""
    with open(name) as file:
        whole = file.read()
    if name.endswith(".disel"):
        line = answer_of(program, ["check"], whole)[1].strip()
        return [("the text", line, line if line.startswith("accepted ") else "accepted")]
    if not name.endswith(".answers"):
        return list(guide_answers(program, whole))
    written = beside(program, whole)
    if write:
        with open(name, "w") as file:
            file.write(written)
    return [("the answers", written, written if write else whole)]


def run(options):
    program = importlib.import_module(options.peer + ".cli") if options.peer else options.program
    for name in options.files:
        found = answers(program, name, options.write)
        for part, line, wanted in found:
            if line != wanted:
                options.status = 1
                print("%s, %s: %s, and not %s" % (name, part, line, wanted))
        print("%s: %d answers" % (name, len(found)))


def main():
    options = argparse.ArgumentParser(description="sees that a guide's texts are answered as it says")
    options.add_argument("--peer")
    options.add_argument("--program", default=os.path.join(HERE, "../crates/disel/out/disel"))
    options.add_argument("--write", action="store_true")
    options.add_argument("files", nargs="+")
    options = options.parse_args()
    options.status = 0
    run_deep(run, options)
    return options.status


if __name__ == "__main__":
    sys.exit(main())
