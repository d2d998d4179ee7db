#!/usr/bin/env python3
"""bench/check.py CRATE [words of `rt check`]: runs `rt check` in that crate's folder, and says on standard error what it is doing.

In a fresh clone `rt check` proves every library below the crate before the crate itself. At the start this says how many there are, how many
of them this checkout has proved, and how long the others took when bench/gate_cost.md measured them, in processor minutes; then, as each
begins, how many are done. What `rt check` itself says goes to standard output as it comes, and its status is this one's.
"""
import os
import re
import subprocess
import sys
import time

TOP = os.path.dirname(os.path.dirname(os.path.abspath(__file__)))
BEGINS = re.compile(r"^(?:rt: chose --jobs \d+ for|checked|fn|struct|enum|impl|trait) (lapin_[a-z_]+)")


def crates():
    """Each crate with the crates of this repository that it names."""
    lines = {}
    with open(f"{TOP}/crates.txt", encoding="utf-8") as file:
        for line in file:
            name, _, below = line.partition("#")[0].partition(":")
            if name.strip():
                lines[name.split()[0]] = below.split()
    return {name: [it for it in below if it in lines] for name, below in lines.items()}


def all_below(name, names):
    """All crates that a crate stands on, lowest first."""
    order = []

    def visit(it):
        for low in names[it]:
            if low not in order:
                visit(low)
                order.append(low)

    visit(name)
    return order


def minutes():
    """What each crate's proof took from nothing, by gate_cost.md, in processor minutes. Those that it doesn't name took less than 1."""
    with open(f"{TOP}/bench/gate_cost.md", encoding="utf-8") as file:
        rows = re.findall(r"^\| `(lapin_[a-z_]+)`[^|]*\| (\d+\.\d+) \|$", file.read(), re.M)
    return {name: float(number) for name, number in rows}


def say(text):
    print(f"check: {text}", file=sys.stderr, flush=True)


def main():
    names = crates()
    if len(sys.argv) < 2 or sys.argv[1] not in names:
        sys.exit(f"{__doc__}\nCRATE is a name of crates.txt.")
    name, words = sys.argv[1], sys.argv[2:]
    below, times = all_below(name, names), minutes()
    left = [it for it in below if not os.path.exists(f"{TOP}/crates/{it}/out/rlib/stamp")]
    known = sum(times.get(it, 0) for it in left)
    unknown = sum(it not in times for it in left)
    say(
        f"{name} stands on {len(below)} libraries, of which {len(left)} are not proved in this checkout"
        + (f": these took {known:.0f} processor minutes when they were measured, and {unknown} of them less than one more each" if left else "")
        + (". Proofs of the same text that another checkout on this machine keeps are taken" if left else "")
    )
    begun, met = time.monotonic(), []
    with subprocess.Popen(
        ["rt", "check", *words], cwd=f"{TOP}/crates/{name}", stdout=subprocess.PIPE, stderr=subprocess.STDOUT, text=True, errors="replace"
    ) as run:
        for line in run.stdout:
            print(line, end="", flush=True)
            seen = BEGINS.match(line)
            if seen and seen.group(1) not in met and seen.group(1) in (*below, name):
                met.append(seen.group(1))
                done = f"{len(met) - 1} of {len(left)} done" if met[-1] != name else "all below is done"
                say(f"{done}; at {met[-1]}; {(time.monotonic() - begun) / 60:.1f} minutes so far")
    say(f"ended with status {run.returncode} after {(time.monotonic() - begun) / 60:.1f} minutes")
    return run.returncode


if __name__ == "__main__":
    sys.exit(main())
