"""Puts together and runs programs over the proof kernel that are no part of the repository.

Their texts lie in folders of bench, with `.txt` after each name, so that no check of the repository reads them. Each is
put into a folder of its own, beside copies of the crates that it needs.
"""
import os
import resource
import shutil
import subprocess
import tempfile

HERE = os.path.dirname(os.path.abspath(__file__))
TOP = os.path.dirname(HERE)
BELOW = ["dl_io", "dl_tree", "dl_term", "dl_model", "dl_subst", "dl_linear", "dl_sequent", "dl_kernel"]
STACK_BYTES = 1 << 30
LINE = "%s: dl_io dl_kernel dl_linear dl_model dl_sequent dl_term dl_tree sqlite_items\n"


class NoAnswer(Exception):
    """The program didn't run to its end."""


def put_together(folder, name, kernel=None, with_work=False):
    """Writes the crates into the folder, and answers that of the program.

    `kernel` is the folder of another dl_kernel. With `with_work` what was proved of the crates before is taken over.
    """
    crates = os.path.join(folder, "crates")
    left_out = shutil.ignore_patterns("must-fail", *([] if with_work else ["out"]))
    for below in BELOW:
        source = kernel if kernel and below == "dl_kernel" else os.path.join(TOP, "crates", below)
        shutil.copytree(source, os.path.join(crates, below), ignore=left_out, symlinks=True)
    program = os.path.join(crates, name)
    for below, _, files in os.walk(os.path.join(HERE, name)):
        to = os.path.join(program, os.path.relpath(below, os.path.join(HERE, name)))
        os.makedirs(to, exist_ok=True)
        for file in files:
            shutil.copy(os.path.join(below, file), os.path.join(to, file[:-len(".txt")]))
    with open(os.path.join(TOP, "crates.txt")) as listed:
        kept = [line for line in listed if line.split(":")[0].split(" ")[0] in BELOW]
    with open(os.path.join(folder, "crates.txt"), "w") as out:
        out.write("".join(kept) + LINE % name)
    shutil.copy(os.path.join(TOP, "HANDLES"), folder)
    return program


def tried(program, texts, seconds=600):
    """The lines that the program in this folder writes for each text by name, run with no proof. It is built once.

    They are missing for a text for which it doesn't end by itself within so many seconds.
    """
    with tempfile.TemporaryDirectory(prefix="cases-") as folder:
        for name, text in texts.items():
            with open(os.path.join(folder, name), "w") as out:
                out.write(text)
        done = run(["rt", "try", "--steps", "1", "--seconds", str(seconds), "--cases", folder], program)
    said = done.stderr.decode(errors="replace")
    if "run=none" in said or not done.stdout:
        raise NoAnswer("rt try ended with %d\n%s" % (done.returncode, said))
    written = by_name(lines(done))
    ended = {name: written[name] for name in texts if "case=%s run=ended status=0 " % name in said}
    if len(ended) < len(texts):
        print(said)
    return ended


def by_name(written):
    """The lines of each case. Those of a case stand under `== NAME`."""
    out = {}
    for line in written:
        if line.startswith("== "):
            out[line[3:]] = []
        else:
            out[list(out)[-1]].append(line)
    return out


def proved(program, jobs):
    """The program, proved and built by so many jobs. Fails where it isn't proved."""
    done = run(["rt", "run", "--jobs", str(jobs)], program)
    name = os.path.basename(program)
    if done.returncode != 0:
        raise NoAnswer("rt run ended with %d\n%s" % (done.returncode, done.stderr.decode(errors="replace")[-4000:]))
    return os.path.join(program, "out", name)


def built(program, text=""):
    """The lines that a built program writes."""
    done = run([os.path.abspath(program)], None, text)
    if done.returncode != 0:
        raise NoAnswer("the program ended with %d\n%s" % (done.returncode, done.stderr.decode(errors="replace")[-2000:]))
    return lines(done)


def lines(done):
    return done.stdout.decode().split("\n")[:-1]


def with_large_stack():
    """Lets the process that is started now have more stack: code that is run with checks takes much of it."""
    most = resource.getrlimit(resource.RLIMIT_STACK)[1]
    resource.setrlimit(resource.RLIMIT_STACK, (STACK_BYTES if most < 0 else min(most, STACK_BYTES), most))


def run(words, folder, text=""):
    """Runs the words in the folder with the text as standard input."""
    return subprocess.run(words, cwd=folder, input=text.encode(), stdout=subprocess.PIPE, stderr=subprocess.PIPE,
                          preexec_fn=with_large_stack)
