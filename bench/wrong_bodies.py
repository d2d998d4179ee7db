#!/usr/bin/env python3
"""Tries the wrong bodies that stand outside the gate: the prover has to refuse each.

The gate tries those of `crates/CRATE/must-fail/`. The others stand in `wrong/CRATE/`, in the same form. This script copies the
tree as it stands, puts the edits of `wrong/` in the place of the copy's own, and has `rt must-fail CRATE` try them there, a
crate at a time. It says of each crate how many were refused, and what the prover said of each that was not, and ends with
status 1 where one was not. A crate's libraries are proved first where no proof of them is kept.

    bench/wrong_bodies.py                   all
    bench/wrong_bodies.py NAME ..           those of a crate, as lapin_ticket, or one alone, as lapin_ticket/NAME
    bench/wrong_bodies.py --list            the crates, and how many each has
"""
import os
import re
import shutil
import subprocess
import sys
import tempfile

TOP = os.path.dirname(os.path.dirname(os.path.abspath(__file__)))
WRONG = f"{TOP}/wrong"
REFUSED = re.compile(r"^(?:rt: )?must-fail (\S+)\.edit: refused, as it must be")


def edits():
    """The names of the edits of each crate."""
    crates = sorted(os.listdir(WRONG))
    return {crate: sorted(it[:-5] for it in os.listdir(f"{WRONG}/{crate}") if it.endswith(".edit")) for crate in crates}


def chosen(names):
    """The edits that the words name, by crate; without words all."""
    every = edits()
    if not names:
        return every
    taken = {}
    for name in names:
        crate, _, edit = name.removesuffix(".edit").partition("/")
        if crate not in every or edit and edit not in every[crate]:
            sys.exit(f"wrong_bodies: there is no wrong/{crate}/{edit + '.edit' if edit else ''}")
        taken.setdefault(crate, set()).update([edit] if edit else every[crate])
    return {crate: sorted(found) for crate, found in sorted(taken.items())}


def copy_to(room, taken):
    """Copies the tree, with the chosen edits in place of its own."""
    skipped = shutil.ignore_patterns("out", "must-fail", "wrong", ".git", "__pycache__")
    shutil.copytree(TOP, room, ignore=skipped, dirs_exist_ok=True)
    # The kit looks for a crate's root no higher than the folder of a repository.
    subprocess.run(["git", "init", "-q", room], check=True)
    for crate, names in taken.items():
        os.makedirs(f"{room}/crates/{crate}/must-fail")
        for name in names:
            shutil.copy(f"{WRONG}/{crate}/{name}.edit", f"{room}/crates/{crate}/must-fail/{name}.edit")


def refused_in(room, crate, names):
    """Tries a crate's edits, says what came of them, and returns how many were refused."""
    ran = subprocess.run(["rt", "must-fail", crate], cwd=room, stdout=subprocess.PIPE, stderr=subprocess.STDOUT, text=True, errors="replace")
    lines = ran.stdout.splitlines()
    refused = {found[1] for found in map(REFUSED.match, lines) if found}
    left = [name for name in names if f"{crate}/{name}" not in refused]
    print(f"{crate}: {len(names) - len(left)} of {len(names)} refused", flush=True)
    for name in left:
        told = [it for it in lines if f"must-fail {crate}/{name}.edit:" in it]
        print("    " + (told[0] if told else f"{name}: nothing was said of it"))
    if left and not any(f"must-fail {crate}/" in it for it in lines):
        print("\n".join("    " + it for it in lines[-20:]))
    return len(names) - len(left)


def main(words):
    if words == ["--list"]:
        for crate, names in edits().items():
            print(f"{crate}: {len(names)}")
        return 0
    taken = chosen(words)
    whole = sum(map(len, taken.values()))
    with tempfile.TemporaryDirectory(prefix="wrong-bodies-") as room:
        copy_to(room, taken)
        refused = sum(refused_in(room, crate, names) for crate, names in taken.items())
    print(f"{refused} of {whole} wrong bodies refused")
    return 0 if refused == whole else 1


if __name__ == "__main__":
    sys.exit(main(sys.argv[1:]))
