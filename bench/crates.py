#!/usr/bin/env python3
"""Writes docs/CRATES.md: each crate with the first sentence of its own comment, by the groups of crates.txt.

With `--check` nothing is written, and the status is 1 where the page isn't what the sources give.

    bench/crates.py [--check]
"""
from sources import groups, kept, opening

HEAD = """# The crates

Made by `bench/crates.py` from crates.txt and each crate's own comment, and not to be edited by hand: `bench/crates.py --check` tells where it isn't
what they say.

A crate names only crates above it on this page; crates.txt has which. Its comment goes on at the head of `src/lib.rt` (of a program, `src/main.rt`), and
says there what doesn't live in it. [ARCHITECTURE.md](ARCHITECTURE.md) has the way of an event through them.
"""


def page():
    """The whole page."""
    told = [HEAD]
    for heading, crates in groups():
        rows = [f"| [`{crate}`](../crates/{crate}/src) | {opening(crate)} |" for crate in crates]
        told.append("\n".join([f"## {heading}", "", "| Crate | What lives there |", "|---|---|", *rows, ""]))
    return "\n".join(told).rstrip() + "\n"


if __name__ == "__main__":
    kept("CRATES.md", page(), "crates.py")
