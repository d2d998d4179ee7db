#!/usr/bin/env python3
"""What follows for a call and its reply from lines that stand elsewhere: a line a method in the crates between a call and its bytes.

A call is its variant in `crates/lapin_types/src/call.rt`, its line in the table of calls (`Calls.antt` of `lapin_rules`), its reply's line
in `Incoming.antt` there, and what its methods are to a broker in `Frames.antt` of `lapin_broker`. From these four the lines below are made
by their form; `method_tables.py` writes those that lack. A call that does more than its form says has its lines by hand, and they stay.
"""
import re

from method_rows import plain, rows_of

TYPES, RULES, BROKER, TEXT = "crates/lapin_types", "crates/lapin_rules", "crates/lapin_broker", "crates/lapin_text"

# By what a client's method is to a broker: where a line stands (file, within which function), and the line.
CLIENT = {
    "ask_unless": [
        (f"{BROKER}/src/frames.rt", "fn client_{of}", "        {Of}Method::{V} {{ nowait, .. }} => ask_unless(*nowait, RequestKind::{K}),"),
        ("crates/lapin_concord/proofs/Departing.antt", "", "{of}_free {seen} = ask_free nowait _"),
        ("crates/lapin_concord/proofs/Frames.antt", "", "plain_{of} {seen} = plain_ask nowait _"),
        ("crates/lapin_concord/proofs/Ending.antt", "", "{of}_not {seen} = ask_not nowait _"),
        ("crates/lapin_answers/proofs/EndOks.antt", "", "shut_{of} {seen} = shut_asked nowait _"),
        ("crates/lapin_answers/proofs/Okays.antt", "", "shut_{of} {seen} = shut_asked nowait _"),
        ("crates/lapin_messages/proofs/Tags.antt", "", "no_{of} c {seen} = no_ask nowait _"),
        ("crates/lapin_verdicts/proofs/Sorting.antt", "", "of_{of} c {seen} y = asked nowait _ _ y refl refl"),
    ],
    "client.Ask": [
        (f"{BROKER}/src/frames.rt", "fn client_{of}", "        {Of}Method::{V}{dots} => ClientFrame::Ask(RequestKind::{K}),"),
        ("crates/lapin_verdicts/proofs/Sorting.antt", "", "of_{of} c {seen} y = (refl, refl)"),
    ],
    "client.Tell": [
        (f"{BROKER}/src/frames.rt", "fn client_{of}", "        {Of}Method::{V}{dots} => ClientFrame::Tell,"),
        ("crates/lapin_verdicts/proofs/Sorting.antt", "", "of_{of} c {seen} y = (refl, refl)"),
    ],
}

# Of a method that is a reply to a broker's request of a kind.
REPLY = [
    (f"{BROKER}/src/request.rt", "pub enum RequestKind ", "    /// `{asks}`.\n    {K},"),
    (f"{BROKER}/src/frames.rt", "fn broker_{of}", "        {Of}Method::{V}{dots} => BrokerFrame::Reply(RequestKind::{K}),"),
    (f"{BROKER}/specs/Plain.antt", "", "reply_by kind.{K} a = method.{Of} {zeros}"),
    (f"{BROKER}/src/plain.rt", "fn plain_reply", "        RequestKind::{K} => Ok(Method::{Of}({Of}Method::{V}{made})),"),
    (f"{BROKER}/proofs/PlainMay.antt", "", "reply_goes c kind.{K} e rs x idle waits = free_goes kind.{K} e rs x [] refl idle waits"),
    ("crates/lapin_concord/specs/Frames.antt", "", "number kind.{K} = {free}"),
    ("crates/lapin_concord/proofs/Sending.antt", "", "same_number kind.{K} kind.{K} h = refl"),
]

# Of a method that a session hears as a reply of a kind, by the answer that it makes.
HEARD = [
    (f"{TYPES}/src/request.rt", "pub enum ReplyKind ", "    /// `{name}`.\n    {R},"),
    (f"{TYPES}/src/request.rt", "pub enum Reply ", "    /// `{name}`.\n    {R},"),
    ("crates/lapin_concord/specs/Wires.antt", "", "reply_number reply_kind.{R} = {free}"),
    ("crates/lapin_concord/proofs/Incomes.antt", "", "kinds_tell reply_kind.{R} reply_kind.{R} = refl"),
]
ANSWERS = {
    "answer.Done": [
        (f"{RULES}/src/broker_frames.rt", "fn sort_{of}", "        {Of}Method::{V} => done(channel, ReplyKind::{R}),"),
        ("crates/lapin_told/proofs/Hearing.antt", "", "  frame_fits (frame.Method c (method.{Of} {seen})) h = λ _. tt"),
    ],
    "answer.Count": [
        (f"{RULES}/src/broker_frames.rt", "fn sort_{of}", "        {Of}Method::{V} {{ {args} }} => Incoming::Reply(channel, ReplyKind::{R}, Answer::Count({args})),"),
        ("crates/lapin_told/proofs/Hearing.antt", "", "  frame_fits (frame.Method c (method.{Of} {seen})) h = λ x. impossible x"),
    ],
}

# Of a call, by how its ticket is answered, and of each call.
ANSWERED = {
    "unless_nowait": [
        ("crates/lapin_concord/proofs/Queues.antt", "", "queues c {call} = unless c (λ t. {queued}) o.nowait _ _ (tells c _ refl fine) (asks c _ _ refl refl fine)"),
        ("crates/lapin_answers/proofs/Rows.antt", "", "row_of c {call} = unless c (λ t. {queued}) o.nowait _ _ refl (for_kind _ _ kind.{K} refl refl refl)"),
        ("crates/lapin_answers/proofs/Moving.antt", "", "inner {call} = line_inner _ o.nowait _ _ (refl, refl)"),
        ("crates/lapin_told/proofs/Calls.antt", "", "  call_fits {call} h n k = either o.nowait _ _ (h, λ x. impossible (k x)) (h, λ x. impossible (k x))"),
    ],
    "awaiting": [
        ("crates/lapin_concord/proofs/Queues.antt", "", "queues c {call} = asks c _ {reply} refl refl fine"),
        ("crates/lapin_answers/proofs/Rows.antt", "", "row_of c {call} = for_kind _ {reply} kind.{K} refl refl refl"),
        ("crates/lapin_told/proofs/Calls.antt", "", "  call_fits {call} h n k = (h, λ x. impossible (k x))"),
    ],
    "done_as_it_leaves": [
        ("crates/lapin_concord/proofs/Queues.antt", "", "queues c {call} = tells c _ refl fine"),
        ("crates/lapin_answers/proofs/Rows.antt", "", "row_of c {call} = refl"),
        ("crates/lapin_told/proofs/Calls.antt", "", "  call_fits {call} h n k = (h, λ x. impossible (k x))"),
    ],
}
EACH_CALL = [
    (f"{RULES}/src/calls.rt", "pub fn sort_call", "        Call::{N}{own} => {sorted},"),
    (f"{TEXT}/specs/Calls.antt", "", "method_of {given} = Some (method.{Of} {taken})"),
    (f"{TEXT}/specs/Calls.antt", "", "{of}_call {method} = Some {remade}"),
    (f"{TEXT}/src/queued.rt", "fn {of}_call", "        {Of}Method::{V}{fields} => Some({call_made}),"),
]


# What of a line tells whose it is: its method, kind of request, kind of reply or call, by a name alone or in a pattern.
MARKS = ("V", "K", "R", "N", "seen", "call", "given", "method")

# Calls whose lines say more than their form: the kind of an exchange is a text, and a select has a mode of its own.
OWN = ("ExchangeDeclare", "ConfirmSelect")


def snake(name):
    return re.sub(r"(?<!^)(?=[A-Z])", "_", name).lower()


def applied(head, args):
    return f"({head} {' '.join(args)})" if args else head


def braced(args):
    return f" {{ {', '.join(args)} }}" if args else ""


def declared(text, enum):
    """The variants of an enum, each with its fields and their types."""
    body = re.sub(r" *///.*\n", "", re.search(rf"pub enum {enum} \{{\n(.*?\n)\}}", text, re.S)[1])
    return [(name, re.findall(r"(\w+): (\w+),", fields or "")) for name, fields in re.findall(r"^    (\w+)(?: \{(.*?)\n    \})?,$", body, re.M | re.S)]


def said(tree, path, start):
    """The lines that begin so, each in one row, by what the group matches."""
    rows, found = tree.entries(path, start)
    return {key: re.sub(r"\s+", " ", "\n".join(rows[slice(*at)])) for key, at in found.items()}

def split(text):
    """The parts of a term: words, and what stands in parentheses."""
    parts, depth = [""], 0
    for sign in text:
        depth += {"(": 1, ")": -1}.get(sign, 0)
        if sign == " " and depth == 0:
            parts.append("")
        else:
            parts[-1] += sign
    return parts


class Lines:
    """Lines by form, each put behind that of the method before."""

    def __init__(self, tree):
        self.tree, self.last, self.other = tree, {}, []

    def put(self, table, words):
        """Each line of a table, filled with these words: put where it lacks, and else compared. A function that isn't there has no line."""
        for path, within, line in table:
            within, line = within.format(**words), line.split("\n")
            mark = next(mark for mark in re.findall(r"(?<!\{)\{(\w+)\}", line[-1]) if mark in MARKS)
            start = re.escape(line[-1].split("{" + mark + "}")[0].format(**words)) + ("" if len(mark) == 1 else r"\(?\w+\.") + r"(\w+)\b"
            if within and not re.search("^" + within, self.tree.read(path), re.M):
                continue
            rows, found = self.tree.entries(path, start, within)
            text = "\n".join(line).format(**words)
            key = re.match(start, text.split("\n")[-1])[1]
            if found and key not in found:
                self.tree.lines(path, start, [(key, text)], within, self.last.get((path, start, within)))
            elif found and len(line) == 1:
                self.compare(path, "\n".join(rows[slice(*found[key])]), text)
            self.last[path, start, within] = key

    def compare(self, path, old, new):
        """Notes a line that says something else than its form does, under whatever names its pattern has."""
        names = [re.search(r"\((\w+\.\w+)((?: \w+)*)\)", text) for text in (old, new)]
        if path.endswith(".antt") and all(names) and names[0][2] != names[1][2]:
            for before, now in zip(names[0][2].split(), names[1][2].split()):
                old = re.sub(rf"(?<![.\w]){before}(?![.\w])", "?" + now, old)
            old = old.replace("?", "")
        if plain(path, old) != plain(path, new):
            self.other.append((path, old, new))


def words_of(m):
    """What the lines say of a method."""
    names = {"name": m.name(), "asks": re.sub("-ok$", "", m.name()), "of": m.of, "Of": m.of.capitalize(), "V": m.variant}
    patterns = {"seen": m.seen(m.of + "."), "method": m.seen(m.of + "_method."), "fields": braced(m.args()), "dots": " { .. }" if m.fields() else ""}
    return {**names, **patterns, "args": ", ".join(m.args())}


def sides(tree, of):
    """What the methods of a class are to a broker, from a client and from the broker: by the variant the word and the kind of request."""
    path, found = f"{BROKER}/specs/Frames.antt", []
    for side in ("client", "broker"):
        lines = said(tree, path, rf"{side}_{of} (?:c )?\(?{of}\.(\w+)")
        lines.update(said(tree, path, rf"{side}_method c \(method\.{of.capitalize()} \(?{of}\.(\w+)"))
        told = {key: re.search(r"= ([\w.]+)(?:.*?kind\.(\w+))?", text) for key, text in lines.items()}
        found.append({key: one.groups() for key, one in told.items() if one})
    return found


def call_tables(tree):
    """Each table that goes by what methods and calls are; gives the lines, with those that say something else than their form."""
    methods = [m for rows in rows_of(tree).values() for m in rows]
    calls = dict(declared(tree.read(f"{TYPES}/src/call.rt"), "Call"))
    asked = said(tree, f"{RULES}/specs/Calls.antt", r"asked \(?call\.(\w+)")
    lines = Lines(tree)
    for m in methods:
        client, broker = (side.get(m.variant, ("", None)) for side in sides(tree, m.of))
        words = dict(words_of(m), K=client[1])
        lines.put(CLIENT.get(client[0], []), words)
        heard = said(tree, f"{RULES}/specs/Incoming.antt", rf"incoming_method c \(method\.{words['Of']} \(?{m.of}\.(\w+)")
        told = re.search(r"incoming\.Reply c reply_kind\.(\w+) \(?([\w.]+)", heard.get(m.variant, ""))
        free = number(tree, broker[1])
        heard_so = [one for one in HEARD if broker[1] or "{free}" not in one[2]]
        if broker[0] == "broker.Reply":
            reply_lines(lines, m, dict(words, K=broker[1], free=free))
        if told:
            lines.put(heard_so + ANSWERS.get(told[2], []), dict(words, R=told[1], free=free))
        name = m.of.capitalize() + m.variant
        if name in calls and name in asked:
            call_lines(lines, m, name, calls[name], asked[name], words)
    return lines


def number(tree, kind):
    """The number of a kind of request, and so of its reply; a new kind has the first above all others."""
    text = tree.read("crates/lapin_concord/specs/Frames.antt") + tree.read("crates/lapin_concord/specs/Wires.antt")
    found = re.findall(r"^(?:reply_)?number \w+\.(\w+) = (\d+)", text, re.M)
    return dict(found).get(kind, 1 + max(int(one) for _, one in found))


def reply_lines(lines, m, words):
    """Of a reply to a request: the plain broker tells counts of 0; a name or a mark that it tells is said by hand."""
    numbers = all(kind in ("short", "long", "wide") for _, kind in m.fields())
    words["zeros"] = applied(f"{m.of}.{m.variant}", ["0"] * len(m.fields()))
    words["made"] = braced([f"{field}: 0" for field, _ in m.fields()])
    lines.put([one for one in REPLY if numbers or not ("{zeros}" in one[2] or "{made}" in one[2])], words)


def sorted_by(tree, m, own):
    """How the table of calls makes a call's line: by the function of its name in the class's file."""
    path = f"{RULES}/src/calls/{m.of}.rt"
    text = tree.read(path) if m.of in ("channel", "exchange", "queue", "basic") else ""
    told = re.search(rf"pub\(crate\) fn {snake(m.variant)}\((.*?)\) -> (\w+)", text, re.S)
    if not told:
        return None
    given = re.findall(r"(\w+):", told[1])
    made = f"{m.of}::{snake(m.variant)}({', '.join(given)})"
    return f"Ok({made})" if told[2] == "Asked" else made


def call_lines(lines, m, name, fields, asked, words):
    """Of a call: by its line in the table of calls, and by its fields, which are those of its method with the marks in one."""
    pattern, body = re.match(r"asked (\(.*?\)|\S+) = (.*)", asked).groups()
    parts = split(body)
    words.update(call=pattern, queued=parts[1][1:-1].replace("o.nowait", "t"), reply=parts[2] if len(parts) == 3 else "")
    lines.put([] if name in OWN else ANSWERED.get(parts[0], []), words)
    own = [field for field, _ in fields]
    words.update(N=name, own=braced(own), sorted=sorted_by(lines.tree, m, own))
    table = [one for one in EACH_CALL if words["sorted"] or "{sorted}" not in one[2]]
    marks = [flag for flag in m.flags if flag not in own]
    if set(own) - {"options"} == set(m.args()) - set(marks) and name not in OWN:
        taken = [arg if arg in own else f"options.{arg}" for arg in m.args()]
        record = "(record { %s })" % "; ".join(f"{mark} = {mark}" for mark in marks)
        options = f"{name}Options {{ {', '.join(marks)} }}"
        words.update(given=applied(f"call.{name}", own), taken=applied(f"{m.of}_method.{m.variant}", taken))
        words["remade"] = applied(f"call.{name}", [record if field == "options" else field for field in own])
        words["call_made"] = f"Call::{name}" + braced([f"options: {options}" if field == "options" else field for field in own])
        lines.put(table, words)
