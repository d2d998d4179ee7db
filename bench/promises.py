#!/usr/bin/env python3
"""Writes docs/PROMISES.md: a line for each law and for each call that a user makes, with the first sentence that stands above it in the
sources and the names of its clauses. Groups and their order are those of crates.txt.

With `--check` nothing is written, and the status is 1 where the page isn't what the sources give.

    bench/promises.py [--check]
"""
import os

from sources import TOP, functions, groups, is_public, kept, sentence

CELL = 200

# The crates whose public functions a user calls; of every other crate the laws alone have a line.
FACES = {
    "lapin_machine", "lapin_session", "lapin_loop", "lapin_check", "lapin_joint", "lapin_transcript", "lapin_resend", "lapin_generate",
    "lapin_call", "lapin_shared", "lapin_work", "lapin_pool", "lapin_program", "lapin_frames", "lapin_handshake", "lapin_client", "lapin_c",
    "lapin_uses", "lapin_publisher",
}

HEAD = """# What is promised, a line each

Made by `bench/promises.py` from the sources, and not to be edited by hand: `bench/promises.py --check` tells where it isn't what they say.

A law is a function that does nothing: its contract is the law, and the prover holds of it that the contract follows. Every public law
has a line, and so has every public function of the crates that a user calls. The sentence is the first of the comment above it, cut
with `..` where it is long. The names are those of its clauses: before a colon those that it asks of its caller, and `..` is a clause without
a name. What a clause says stands at the function, in the words of the crate's `specs/`. A crate that no user calls and that has no law has no line
here; what its functions promise stands at them ([CRATES.md](CRATES.md)). [THEOREMS.md](THEOREMS.md) says what all that comes to,
[REVIEW.md](REVIEW.md) what none of it says.
"""


def row(function, folder):
    """A line of a table."""
    asks = "where " + ", ".join(function.asks) + ": " if function.asks else ""
    return f"| [`{function.name}`]({os.path.relpath(function.path, folder)}) | {sentence(function.comment, CELL)} | {asks}{', '.join(function.gives)} |"


def page():
    """The whole page."""
    told = [HEAD]
    for heading, crates in groups():
        tables = []
        for crate in crates:
            all_of = functions(crate)
            laws = [f for f in all_of if f.is_law]
            calls = [f for f in all_of if not f.is_law and crate in FACES and is_public(crate, f) and f.gives]
            for name, listed in (("Law", laws), ("Call", calls)):
                if listed:
                    tables.append(f"| {name} of `{crate}` | Says | Clauses |\n|---|---|---|")
                    tables.extend(row(f, f"{TOP}/docs") for f in listed)
                    tables.append("")
        if tables:
            told.append(f"## {heading}\n\n" + "\n".join(tables))
    return "\n".join(told).rstrip() + "\n"


if __name__ == "__main__":
    kept("PROMISES.md", page(), "promises.py")
