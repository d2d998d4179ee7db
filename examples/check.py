#!/usr/bin/env python3
"""See that the files of this folder are the runs of the tests, and that the built program prints their answers.

The runs stand in files of crates of tests, a file for each command, with a line an event or a step and, behind an arrow, its
record or report; of `check`, whose answers come once all was read, with the lines and then the answers, an arrow before each; of a pool the records are
the first caller's, and lines without an event say what is printed behind them. The gate runs them there; this script, which stands outside
it, compares the files beside it with them. Where the program is built (`./lapin` builds it), it is run on each file too.

    examples/check.py
"""
import os
import subprocess
import sys

HERE = os.path.dirname(os.path.abspath(__file__))
TOP = os.path.dirname(HERE)
TABLES = {
    "session": ["lapin_tests/src/examples.rt", "lapin_tests/src/tutorials.rt"],
    "joined": ["lapin_tests/src/command/joined/examples.rt"],
    "check": ["lapin_tests/src/command/check/examples.rt"],
    "resend": ["lapin_tests/src/command/resend/examples.rt"],
    "call replies": ["lapin_tests/src/command/calls/examples.rt"],
    "pool 1": ["lapin_shared_tests/src/pool/examples.rt"],
}
PROGRAM = os.path.join(TOP, "crates", "lapin_run", "out", "lapin_run")
NAME = "# examples/"


def runs(table):
    """The lines and the answers of each example of a table, by the name of its file."""
    found, steps = {}, None
    with open(os.path.join(TOP, "crates", table), encoding="utf-8") as lines:
        for line in lines.read().split("\n"):
            if NAME in line:
                steps = found.setdefault(line.split(NAME)[1], [])
            elif steps is not None:
                read_line(steps, line.rstrip("\";"))
                # the table ends with its text
                steps = None if line.endswith('";') else steps
    return found


def read_line(steps, line):
    """A line with its answer, or one of the two, to the lines and answers before it."""
    if line.startswith("-> "):
        steps.append([None, line[3:]])
    elif " -> " in line:
        steps.append(line.split(" -> "))
    elif line.startswith(("up ", "down ")):
        steps.append([line, None])


def printed(words, name):
    with open(os.path.join(HERE, name), "rb") as given:
        return subprocess.run([PROGRAM, *words.split()], stdin=given, capture_output=True, check=False).stdout.decode()


def wanted(word, steps):
    """What the command prints for a run."""
    caller = "1 " if word.startswith("pool") else ""
    return "".join(f"{caller if step else ''}{answer}\n" for step, answer in steps if answer is not None)


def main():
    wrong = 0
    told = {
        name: (word, steps)
        for word, tables in TABLES.items()
        for table in tables
        for name, steps in runs(table).items()
    }
    files = {name for name in os.listdir(HERE) if name.endswith(".txt")}
    for name in sorted(files | set(told)):
        if name not in told or name not in files:
            print(f"{name}: only one of file and run")
            wrong += 1
            continue
        word, steps = told[name]
        with open(os.path.join(HERE, name), encoding="utf-8") as text:
            lines = text.read()
        if lines != "".join(f"{line}\n" for line in ["frame_max 4096"] + [step for step, _ in steps if step]):
            print(f"{name}: not the lines of its run")
            wrong += 1
        elif os.path.exists(PROGRAM) and printed(word, name) != wanted(word, steps):
            print(f"{name}: the program prints other answers")
            wrong += 1
        else:
            print(f"{name}: ok")
    sys.exit(1 if wrong else 0)


if __name__ == "__main__":
    main()
