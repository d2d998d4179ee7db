#!/usr/bin/env python3
"""The tables of states in docs/RULES.md against the definitions.

Each row of a table says: from a state, by a happening, to a state. Each is looked up in `after` or `link_after` of
crates/lapin_rules/specs/Moves.antt, which the code is proved to follow. A row that says otherwise is told, and the status is 1.

    bench/state_tables.py
"""
import os
import re
import sys

TOP = os.path.dirname(os.path.dirname(os.path.abspath(__file__)))
MOVES = f"{TOP}/crates/lapin_rules/specs/Moves.antt"
RULES = f"{TOP}/docs/RULES.md"

# Which move a row's words mean, the first that is found; and a row's start and end as the definitions write them.
HAPPENINGS = [
    ("the call `channel.open`", "move.OpenCalled"),
    ("`channel.open-ok`", "move.OpenOk"),
    ("`channel.close-ok`", "move.CloseOk"),
    ("`channel.close`", "move.Close"),
    ("a close of this side", "move.CloseBegun"),
    ("the call `connection.close`", "link_move.CloseBegun"),
    ("`connection.close-ok`", "link_move.CloseOk"),
    ("`connection.close`", "link_move.Close"),
    ("the loss", "link_move.Lost"),
]
CHANNEL = {
    "closed": "phase.Closed", "opening": "phase.Opening", "open": "phase.Open", "crossed": "phase.Crossed",
    "closing": "phase.Closing who sent", "closing, the own close not left": "phase.Closing who false",
    "closing, the own close left": "phase.Closing who true",
}
CONNECTION = {
    "open": "link.Open", "closed": "link.Closed", "lost": "link.Lost", "any": "l",
    "closing": "link.Closing s", "closing, the own close not left": "link.Closing stage.Queued",
    "closing, the own close left": "link.Closing stage.Sent",
}


def clauses(name):
    """The clauses of a definition: where it starts from, the move, where that leads, in order."""
    found = []
    for line in open(MOVES, encoding="utf-8"):
        match = re.match(rf"{name} (\([^)]*\)|\w+) (\([^)]*\)|\S+) = (.*)", line)
        if match:
            found.append([part.strip("() \n") for part in match.groups()])
    return found


def fits(pattern, state):
    """Whether a clause's pattern takes a state: word by word, where a word in small letters takes any but true and false."""
    wanted, given = pattern.split(), state.split()
    if len(wanted) == 1 and "." not in wanted[0]:
        return True
    free = lambda word: "." not in word and word not in ("true", "false")
    return wanted[0] == given[0] and all(free(a) or a == b for a, b in zip(wanted[1:], given[1:]))


def leads(name, state, move):
    """Where the definition leads: the first clause that takes it."""
    for start, happening, end in clauses(name):
        if happening.split()[0] == move and fits(start, state):
            return state if end == start and "." not in end else end
    return None


def rows(text):
    """The two tables: of each, its rows."""
    tables = re.findall(r"\| From \| By \| To \|\n\|[-|]+\|\n((?:\|.*\n)+)", text)
    return [[[cell.strip() for cell in row.strip("|").split("|")] for row in table.splitlines()] for table in tables]


def wrong(table, name, states):
    """The rows that the definition doesn't say."""
    told = []
    for start, by, to in table:
        move = next((move for words, move in HAPPENINGS if words in by), None)
        for state in [part.strip() for part in ([start] if start in states else start.split(","))]:
            end = leads(name, states[state], move) if move else None
            if end is None or end.split()[0] != states[to].split()[0]:
                told.append(f"| {start} | {by} | {to} |: {name} leads to {end}")
    return told


def main():
    tables = rows(open(RULES, encoding="utf-8").read())
    told = []
    for table, name, states in zip(tables, ["link_after", "after"], [CONNECTION, CHANNEL]):
        told += wrong(table, name, states)
    print("\n".join(told) or f"{sum(len(table) for table in tables)} rows, each as the definitions say")
    sys.exit(1 if told else 0)


main()
