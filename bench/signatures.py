#!/usr/bin/env python3
"""Writes docs/SIGNATURES.md: each public call of the crates that a caller in Rattle uses, with its arguments, its result, its errors and the
names of its clauses, and the types that they take and give. It is made of the sources; CRATES has the order of use.

With `--check` nothing is written, and the status is 1 where the page isn't what the sources give.

    bench/signatures.py [--check]
"""
import re

from sources import functions, is_given, is_public, kept, types, uses

# The crates in the order of use, with what each is for.
CRATES = [
    ("lapin_types", "The values, and what goes in and comes out: every crate below lists them under this name."),
    ("lapin_session", "A session, its channels, tickets, confirms and consumers, and the calls of a message's acker."),
    ("lapin_loop", "What every caller's loop needs."),
    ("lapin_uses", "Callers to copy: a publisher with a window, a worker, a reconnect, a socket's thread."),
    ("lapin_bounded", "A caller with a proof of its own."),
    ("lapin_call", "Requests and replies over queues."),
    ("lapin_resend", "A publisher that sends again."),
    ("lapin_keeping", "Messages that are kept until a broker has answered for them."),
    ("lapin_publisher", "A publisher that keeps its messages, and its turns with a session."),
    ("lapin_shared", "One session for several threads. What lies under its lock has no line."),
    ("lapin_acker", "Delegates and their verdicts."),
    ("lapin_work", "Workers that take jobs."),
    ("lapin_pool", "A pool of workers, with a card of each delivery."),
    ("lapin_client", "A session with the octets of its connection."),
    ("lapin_frames", "Frames as octets."),
    ("lapin_fields", "The fields that frames are made of."),
    ("lapin_handshake", "The opening of a connection, and its heartbeats."),
    ("lapin_text", "Events and records as text."),
    ("lapin_lines", "A line that is taken and answered."),
]

# The crates whose names another one gives on, which have no section.
BEHIND = {"lapin_types": ("lapin_values", "lapin_methods")}

# Of a crate that stands for others to build on, what a caller names; and what no caller has.
NAMED = {"lapin_acker": {"ConsumerDelegate", "FnDelegate", "BoxedDelegate", "Delegates", "Verdict", "Handler"}}
UNDER_THE_LOCK = {"Locked", "Stored"}

# The types whose calls come first in their crate; the others follow in the order of files and lines.
FIRST = ["Session", "Channel", "Ticket", "PublisherConfirm", "Consumer", "AckerCalls", "Client", "Caller"]

# What each value has, which the head says once; and what METHODS.md has.
EACH, IN_METHODS = {"try_clone", "same", "method_id", "class_id"}, re.compile(r"[A-Z][a-z]+Method$")

SHORT = [
    (r"\b_?alloc: Global\b", "alloc"), (r"\bsession: &mut Session\b", "session"), (r"\(mut self\b", "(self"),
    (r"<R: Wait>\(((?:&mut self|&self|&'a self)?(?:, )?)rt: &R\b", r"(\1rt"), (r"\bstd::\w+::", ""),
]

HEAD = """# Calls and their types

Made by `bench/signatures.py` from the sources, and not to be edited by hand: `bench/signatures.py --check` tells where it isn't what they say.

For a caller in Rattle, by crate, in the order of use: the types, and each public call. `alloc` is `alloc: Global`, `session` is
`session: &mut Session`, and `rt` is `rt: &R` of any `R: Wait`, as `main` is handed one. Calls of one type with equal arguments, result, errors
and clauses share a line. Errors are those that the call's comment names, where it has any; it also says when each comes. Clauses are given by
name, `..` one without a name; those before a colon are asked of the caller. What a call says of itself in a sentence stands in
[PROMISES.md](PROMISES.md), how calls are used in [CALLING.md](CALLING.md) and [THREADS.md](THREADS.md). Of a struct `..` is what only its crate
sees. Most values have `try_clone(&self, alloc)` and `same(&self, &Self)`, which have no line here; the variants of methods stand in
[METHODS.md](METHODS.md).
"""


def flat(text):
    """A text in one line, without the commas that end lists."""
    text = re.sub(r"\s+", " ", text).strip()
    text = re.sub(r",? ?([)\]])", r"\1", text)
    text = re.sub(r"([(\[]) ", r"\1", text)
    return re.sub(r", }", " }", text)


def pieces(text):
    """What the commas of a list part, but for those within brackets."""
    found, depth, start = [], 0, 0
    for at, sign in enumerate(text):
        depth += (sign in "([{<") - (sign in ")]}" or sign == ">" and text[at - 1] != "-")
        if sign == "," and depth == 0:
            found.append(text[start:at])
            start = at + 1
    return [it for it in map(str.strip, [*found, text[start:]]) if it]


def type_line(source):
    """A type as a caller sees it, in one line; nothing where its crate alone sees its fields."""
    source = re.sub(r'#\[(?:[^\[\]"]|"(?:\\.|[^"])*"|\[[^\]]*\])*\]', "", source)
    opened = source.find("{")
    head = flat(source[4 : opened if opened >= 0 else None])
    if head.startswith("trait"):
        return head.rstrip(";")
    if opened < 0:
        return head.rstrip(";")
    fields = [flat(it) for it in pieces(source[opened + 1 : -1]) if not it.startswith("ghost ")]
    if head.startswith("struct"):
        seen = [it[4:] for it in fields if it.startswith("pub ")]
        if not seen:
            return None
        fields = seen + [".."] * (len(seen) < len(fields))
    return f"{head} {{ {', '.join(fields)} }}"


def shape(function):
    """A call's arguments and result, without its name."""
    text = flat(re.sub(r"^\s*(pub )?(extern \"C\" )?fn \w+", "", re.sub(r"//.*", "", function.signature)))
    for long, short in SHORT:
        text = re.sub(long, short, text)
    return text.rstrip(" ;")


def errors(function):
    """The errors that the comment names: their names, or whose they are, or else the comment's first sentence."""
    if "# Errors" not in function.comment:
        return ""
    words = function.comment[function.comment.index("# Errors") + 1 :]
    text = " ".join(words[: words.index("")] if "" in words[1:] else words).strip()
    first = re.split(r"(?<=[^.]\.)\s", text, maxsplit=1)[0]
    others = ", ".join(dict.fromkeys(re.findall(r"`([\w:]+)`", first)))
    if re.match(r"(Those of|As) ", text):
        return f"as {others}"
    if not re.match(r"`|Of an ", text):
        return first.rstrip(".").replace("`", "")
    named = dict.fromkeys(re.findall(r"`([A-Z]\w+)(?: \{[^`]*)?`", text))
    also = re.search(r"(?:else )?those of `([\w:]+)`", text)
    return ", ".join(named) + (f", else as {also[1]}" if also else "")


def rows(listed):
    """The lines of a table by type, where calls of one shape, errors and clauses share one."""
    owners = list(dict.fromkeys(it.name.rpartition("::")[0] for it in listed))
    owners.sort(key=lambda it: FIRST.index(it) if it in FIRST else len(FIRST))
    shared = {}
    for function in sorted(listed, key=lambda it: owners.index(it.name.rpartition("::")[0])):
        owner, _, name = function.name.rpartition("::")
        asks = ", ".join(function.asks) + ": " if function.asks else ""
        key = (owner, shape(function), errors(function), asks + ", ".join(function.gives))
        shared.setdefault(key, []).append(name)
    for (owner, text, failing, clauses), names in shared.items():
        names = "`, `".join([*names[:-1], names[-1] + text])
        yield re.sub(r"\|  (?=\|)", "| ", f"| {owner} | `{names}` | {failing} | {clauses} |")


def named_in(crate):
    """What a crate gives: its own types and calls, and those of the crates whose names it gives on."""
    told, calls = [], []
    whole = BEHIND.get(crate, ())
    behind = [(whose, set(names) - UNDER_THE_LOCK) for whose, names in uses(crate) if whose.startswith("lapin_") and whose not in whole]
    for whose, names in [(crate, NAMED.get(crate)), *behind, *((it, None) for it in whole)]:
        for path, name, source in types(whose):
            if is_given(whose, path, name) and (names is None or name in names) and not IN_METHODS.match(name):
                told.append(type_line(source))
        for function in functions(whose):
            first, _, last = function.name.rpartition("::")
            is_one = is_public(whose, function) and not function.is_law and last not in EACH
            if is_one and (names is None or (first or last) in names):
                calls.append(function)
    return [it for it in told if it], calls


def section(crate, purpose):
    """A crate's types and calls."""
    told, calls = named_in(crate)
    lines = [f"## {crate}", "", purpose, ""]
    if told:
        lines += ["```rust", *told, "```", ""]
    if calls:
        lines += ["| Of | Call | Errors | Clauses |", "|---|---|---|---|", *rows(calls), ""]
    return "\n".join(lines)


if __name__ == "__main__":
    kept("SIGNATURES.md", "\n".join([HEAD, *(section(*it) for it in CRATES)]).rstrip() + "\n", "signatures.py")
