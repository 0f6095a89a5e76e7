#!/usr/bin/env python3
"""Runs each command of `railplan` once for each request for memory that it makes, with that request refused.

    refused_memory.py BIN FOLDER

BIN is the program as `rt run` builds it, and FOLDER has the days of crates/railplan/data. It needs a C compiler. The
refused_memory.md beside it says what a run may come to.
"""
import collections
import os
import shutil
import subprocess
import sys
import tempfile

# Each command, and the days that it is run on, which are in FOLDER or made; a trial has none, and the last one is not
# understood.
RUNS = (
    (("simulate",), ("day", "day_refused", "turn", "branch_line", "ring_stops", "exchange", "two_classes")),
    (("plan", "--nodes", "3", "--rounds", "2"), ("day", "turn", "branch_line", "exchange")),
    (("check",), ("day", "wrong_cost")),
    (("duties",), ("day",)),
    (("yards",), ("day",)),
    (("costs",), ("day", "no_plan")),
    (("trial", "7", "4", "--nodes", "2"), (None,)),
    (("trial", "7", "5"), (None,)),
)
# The days that are made: that of the folder `day`, each with another answer. One says a cost that its plan doesn't
# have, and one is valid and has no plan.
ANSWERS = {
    "wrong_cost": ("optimal 61", "branchings 0", "run 0 0", "run 1 0", "tree", "cost 60 0"),
    "no_plan": ("bounded 60", "branchings 0", "tree", "cost 60 0"),
}
SECONDS = 60


def build(folder):
    """The library that refuses a request."""
    source = os.path.join(os.path.dirname(os.path.abspath(__file__)), "refused_memory.c")
    library = os.path.join(folder, "refused_memory.so")
    subprocess.run(["cc", "-O1", "-shared", "-fPIC", "-o", library, source, "-ldl"], check=True)
    return library


def make_days(days, folder):
    """Makes the days with another answer."""
    for name, lines in ANSWERS.items():
        made = os.path.join(folder, name)
        shutil.copytree(os.path.join(days, "day"), made)
        with open(os.path.join(made, "answer.txt"), "w", encoding="ascii") as answer:
            answer.write("\n".join(("railplan answer 1",) + lines + ("end",)) + "\n")


def run(words, library, refused, folder):
    """The status and the output of a run, and how many requests it made."""
    counts = os.path.join(folder, "requests")
    given = {"LD_PRELOAD": library, "REFUSED": str(refused), "REQUESTS": counts}
    done = subprocess.run(words, env=given, capture_output=True, timeout=SECONDS, check=False)
    with open(counts, encoding="ascii") as file:
        return done.returncode, done.stdout, int(file.read())


def is_lawful(status, written, usual):
    """Whether a run with a request refused may end so, where the run with none refused ends as usual."""
    if status == 7:
        return written == b""
    if status == 6:
        return usual[1].startswith(written) and written != usual[1]
    if status == 5:
        return written.startswith(b"cannot read ") and written.endswith(b"\n")
    return (status, written) == usual


def try_all(words, library, folder):
    """Runs the words with each request refused in turn. The answer says how the run with none refused ends, how many
    requests it makes, and how many of the others ended with each status."""
    status, written, requests = run(words, library, 0, folder)
    ended = collections.Counter()
    for refused in range(1, requests + 1):
        found = run(words, library, refused, folder)[:2]
        if not is_lawful(*found, (status, written)):
            sys.exit(f"{' '.join(words[1:])}, request {refused}: status {found[0]}, written {found[1]!r}")
        ended[found[0]] += 1
    return status, requests, ended


def main():
    program, days = os.path.abspath(sys.argv[1]), os.path.abspath(sys.argv[2])
    print("| Command | Day | Usual status | Requests | Ended with each status |")
    print("|---|---|---|---|---|")
    with tempfile.TemporaryDirectory() as folder:
        library = build(folder)
        make_days(days, folder)
        for command, names in RUNS:
            for name in names:
                day = [os.path.join(folder if name in ANSWERS else days, name)] if name else []
                status, requests, ended = try_all([program, command[0], *day, *command[1:]], library, folder)
                told = ", ".join(f"{status}: {count}" for status, count in sorted(ended.items()))
                print(f"| `{' '.join(command)}` | {name or ''} | {status} | {requests:,} | {told} |", flush=True)


if __name__ == "__main__":
    main()
