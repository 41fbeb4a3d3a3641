"""Runs a script's work where deep recursion has room."""
import sys
import threading

STACK_BYTES = 512 << 20
MOST_CALLS = 1_000_000


def run_deep(work, *arguments):
    """What `work(*arguments)` answers, run in a thread with a large stack. What it raises is raised here."""
    answers, faults = [], []

    def run():
        try:
            answers.append(work(*arguments))
        except BaseException as fault:  # an exit too, of which a thread would tell nobody
            faults.append(fault)

    sys.setrecursionlimit(MOST_CALLS)
    threading.stack_size(STACK_BYTES)
    thread = threading.Thread(target=run)
    thread.start()
    thread.join()
    if faults:
        raise faults[0]
    return answers[0]
