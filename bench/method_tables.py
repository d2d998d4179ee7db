#!/usr/bin/env python3
"""Writes what follows from the tables of methods and of calls, so that nobody has to keep it in step by hand.

The rows of methods stand in `crates/lapin_frames/src/`, a file a class; what is made of them says method_rows.py. A call is its variant
in `crates/lapin_types/src/call.rt`, its line and its reply's in the tables of `lapin_rules`, and the lines of their methods in `Frames.antt` of
`lapin_broker`; what is made of these say method_lines.py and method_calls.py. Made here are the page `docs/METHODS.md`, the rows in
`crates/lapin_reasons/src/rows.rt` by which a bad line is explained, and the table by which a name finds its method at once: `PLACES` of
`kinds.rt`, with the factors of a name's slot, there and in `Slots.antt`. Proofs are among what is made: a line a method, as its form asks.

    bench/method_tables.py            writes them; `rt fmt` in the crates that it names lays the code out
    bench/method_tables.py --check    says what is out of step, and ends with status 1 where something is
"""
import itertools
import os
import re
import sys

from method_calls import own_tables
from method_lines import call_tables
from method_rows import Tree, frame_tables, kinds_of, plain, rows_of

TOP = os.path.dirname(os.path.dirname(os.path.abspath(__file__)))
PAGE, ROWS = "docs/METHODS.md", "crates/lapin_reasons/src/rows.rt"
KINDS_FILE, SLOTS_FILE = "crates/lapin_method_text/src/kinds.rt", "crates/lapin_method_text/specs/Slots.antt"

# A slot in the code: its factors, and the size of the table.
SLOT = r"\((\d+) \* name\.len\(\) \+ (\d+) \* ends \+ (\d+) \* \(name\[name\.len\(\) - 5\] as usize\)\) % (\d+)"

# What a kind of field is called in the format.
KINDS = {"text": "STR", "table": "TABLE", "flag": "BOOL", "short": "u16", "long": "u32", "wide": "u64"}


def called(tree):
    """The names of the methods that a caller may call."""
    text = tree.read("crates/lapin_text/src/queued.rt")
    arms = set(re.findall(r"^        (\w+)Method::(\w+)", text, re.M))
    names = {m.name() for rows in rows_of(tree).values() for m in rows if (m.of.capitalize(), m.variant) in arms}
    return names | {"basic.publish", "channel.close", "connection.close"}


def in_page(tree):
    """The page of methods."""
    calls = called(tree)
    lines = [
        "# Methods",
        "",
        "Each method with its fields, as they follow its name in a line ([FORMAT.md](FORMAT.md)). A method marked with a star is one that a caller may",
        "call; a `recv method` may have any. Made from the code's own tables by `bench/method_tables.py`, and not to be edited by hand.",
        "",
        "| Method | Fields |",
        "|---|---|",
    ]
    for m in [m for rows in rows_of(tree).values() for m in rows]:
        told = ", ".join(f"{field} {KINDS[kind]}" for field, kind in m.fields()) or "none"
        star = " \\*" if m.name() in calls else ""
        lines.append(f"| `{m.name()}`{star} | {told} |")
    return "\n".join(lines) + "\n"


def in_rows(tree):
    """The rows as code."""
    found = rows_of(tree)
    kinds = sorted([kinds_of(name) for name in found] + ["MethodKind"])
    calls = called(tree)
    out = [
        "//! The fields of each method as a text, and which methods a caller may call, to explain a bad line by.",
        "//!",
        "//! This file is made by bench/method_tables.py from the tables of methods. What a line is read by stands there; here is what is said.",
        "",
        f"use lapin_method_text::kinds::{{{', '.join(kinds)}}};",
        "",
        "/// The fields of a method, each as its name, a colon and its kind.",
        "pub(crate) fn fields_of(kind: MethodKind) -> &'static str {",
        "    match kind {",
        *[f"        MethodKind::{name.capitalize()}(kind) => {name}_fields(kind)," for name in found],
        "    }",
        "}",
        "",
        "/// Whether a caller may call it, as a method that a call queues.",
        "pub(crate) fn is_called(kind: MethodKind) -> bool {",
        "    match kind {",
    ]
    for name, rows in found.items():
        theirs = [f"MethodKind::{name.capitalize()}({kinds_of(name)}::{m.variant})" for m in rows if m.name() in calls]
        out += [f"        {it} => true," for it in theirs]
    out += ["        _ => false,", "    }", "}"]
    for name, rows in found.items():
        out += ["", f"fn {name}_fields(kind: {kinds_of(name)}) -> &'static str {{", "    match kind {"]
        for m in rows:
            row = " ".join(":".join(it) for it in m.fields())
            out.append(f'        {kinds_of(name)}::{m.variant} => "{row}",')
        out += ["    }", "}"]
    return "\n".join(out) + "\n"


def slot(name, factors):
    """The slot of a name, as `slot_of` in `kinds.rt` has it: from its length, its fourth byte, its last and the fifth from the end."""
    by_length, by_ends, by_fifth, size = factors
    text = name.encode()
    return (by_length * len(text) + by_ends * (text[3] + text[-1]) + by_fifth * text[-5]) % size


def factors_for(names, now):
    """Factors and a size of the table by which no two names share a slot: those that stand, or the first others."""
    others = (found[1:] + found[:1] for found in itertools.product((128, 256, 512), *[range(2, 40)] * 3))
    for factors in itertools.chain([now], others):
        if len({slot(name, factors) for name in names}) == len(names):
            return factors
    sys.exit("no factors give each name a slot of its own: a slot has to be made of other bytes too")


def in_kinds(text, names, factors):
    """`kinds.rt` with its table of places and its factors."""
    size = factors[3]
    places = [len(names)] * size
    for place, name in enumerate(names):
        places[slot(name, factors)] = place
    rows, row = [], "   "
    for place in places:
        if len(row) + len(f" {place},") > 99:
            rows.append(row)
            row = "   "
        row += f" {place},"
    table = f"pub const PLACES: [u8; {size}] = [\n" + "\n".join(rows + [row]) + "\n];"
    text = re.sub(r"pub const PLACES: \[u8; \d+\] = \[.*?\];", table, text, flags=re.S)
    text = re.sub(r"has the slot; \d+, behind", f"has the slot; {len(names)}, behind", text)
    text = re.sub(r"(?<=length name\.now ≤ )\d+|\d+(?= < name\.len\(\))", str(max(map(len, names))), text)
    return re.sub(SLOT, "(%d * name.len() + %d * ends + %d * (name[name.len() - 5] as usize)) %% %d" % factors, text)


def in_slots(text, factors, longest):
    """Definitions and proofs with the factors and the length of the longest name."""
    text = re.sub(r"nat_lt \d+ \(length name\)", f"nat_lt {longest} (length name)", text)
    text = re.sub(r"below \d+, made", f"below {factors[3]}, made", text)
    line = "slot name = (%d * length name + %d * (slice_index name 3 + slice_index name (length name - 1)) + %d * slice_index name (length name - 5)) %% %d"
    return re.sub(r"slot name = .*", line % factors, text)


def tables(tree):
    """Each file as it should be; gives the lines that say something else than their form does."""
    frame_tables(tree)
    lines = call_tables(tree)
    own_tables(tree)
    tree.new[PAGE] = in_page(tree)
    tree.new[ROWS] = in_rows(tree) if plain(ROWS, in_rows(tree)) != plain(ROWS, tree.read(ROWS)) else tree.read(ROWS)
    names = [m.name() for rows in rows_of(tree).values() for m in rows]
    factors = factors_for(names, tuple(int(one) for one in re.search(SLOT, tree.read(KINDS_FILE)).groups()))
    tree.new[KINDS_FILE] = in_kinds(tree.read(KINDS_FILE), names, factors)
    for path in (SLOTS_FILE, "crates/lapin_method_text/proofs/MethodLaws.antt"):
        tree.new[path] = in_slots(tree.read(path), factors, max(map(len, names)))
    return lines.other


def main(words):
    tree = Tree(TOP)
    other = tables(tree)
    stale = tree.stale()
    for path, old, new in other:
        print(f"{path}: a line says something else than its form: {old.strip()}, where {new.strip()} is meant")
    for path in stale:
        if words != ["--check"]:
            open(f"{TOP}/{path}", "w", encoding="utf-8").write(tree.new[path])
        print(f"{path}: {'out of step with the tables of methods' if words == ['--check'] else 'written'}")
    return 1 if other or stale and words == ["--check"] else 0


if __name__ == "__main__":
    sys.exit(main(sys.argv[1:]))
