#!/usr/bin/env python3
"""What of a call is a function of its variant in `crates/lapin_types/src/call.rt` and of its marks: its copy and its equality, the names under
which crates above list its marks, and the same call of a caller of the running client. `method_tables.py` writes what lacks.
"""
import re

from method_lines import TYPES, applied, braced, declared, snake
from method_rows import alike, rows_of

EQUAL = {"ShortString": "text_alike", "Payload": "text_alike", "FieldTable": "same_by-Decides table_code",
         "ExchangeKind": "same_by-Decides kind.the_row.coded", "BasicProperties": "same_by-Decides properties_code"}


def marks_of(tree):
    """The marks of methods: each struct with its fields."""
    text = tree.read("crates/lapin_methods/src/options.rt")
    return {name: re.findall(r"pub (\w+): bool", body) for name, body in re.findall(r"pub struct (\w+Options) \{(.*?)\n\}", text, re.S)}


def reply_kinds(tree):
    """The kind of a reply, as code and as a definition."""
    path = f"{TYPES}/src/request.rt"
    replies = declared(tree.read(path), "Reply")
    arms = [(name, f"            Reply::{name}{' { .. }' if fields else ''} => ReplyKind::{name},") for name, fields in replies]
    tree.lines(path, r"            Reply::(\w+)", arms, r"    pub fn kind\(")
    lines = [(name, f"kind_of {applied('reply.' + name, [field for field, _ in fields])} = reply_kind.{name}") for name, fields in replies]
    tree.lines(f"{TYPES}/specs/Requests.antt", r"kind_of \(?reply\.(\w+)", lines)


def mark_names(tree, marks):
    """The marks by the names under which crates above list them."""
    tree.imports("crates/lapin_methods/src/lib.rt", "pub use options::", marks)
    tree.imports(f"{TYPES}/src/lib.rt", "pub use lapin_methods::", marks)
    line = "pub use Rattle.lapin_methods.specs.declared.options.{0}.{{{0}}}"
    tree.added(f"{TYPES}/specs/Types.antt", [(name, line.format(name)) for name in sorted(marks)], r"pub use .*\.options\.(\w+)\.\{")


def equal_marks(name, flags):
    """That two values of a method's marks are equal where each mark is."""
    short = snake(name[: -len("Options")])
    head = f"\n{short}_alike : (a b : {name}) → Decides ({short}_eq.ghosts.eq a b) (a ≡ b)\n"
    if len(flags) < 4:
        return f"{head}{short}_alike a b = search rules"
    shown = lambda paths: "record { %s }" % "; ".join(f"{flag} = {path} i" for flag, path in zip(flags, paths))
    return head + alike(f"{short}_alike a b =", [f"booleans_Decides a.{flag} b.{flag}" for flag in flags], shown)


def equality(tree, calls, marks):
    """That the derived equality of calls tells whether two of them are equal."""
    path = f"{TYPES}/proofs/CallAlike.antt"
    used = {kind for fields in calls.values() for _, kind in fields if kind in marks}
    names = lambda name: (f"use Rattle.lapin_methods.specs.contracts.options.{name}PartialEq.TheImpl as {snake(name[:-7])}_eq\n"
                          f"use Rattle.lapin_methods.specs.declared.options.{name}.{{{name}}}")
    tree.added(path, [(name, names(name)) for name in sorted(used)], r"use .*\.declared\.options\.(\w+)\.\{")
    laws = [(snake(name[:-7]), equal_marks(name, marks[name])) for name in sorted(used)]
    tree.added(path, laws, r"(\w+)_alike a b =")
    lines = []
    for name, fields in calls.items():
        one = f"call_.{name}"
        head = f"call_alike {applied(one, [f'a{at}' for at in range(len(fields))])} {applied(one, [f'b{at}' for at in range(len(fields))])} ="
        equal = [f"{EQUAL.get(kind, snake(kind[:-7]) + '_alike' if kind in marks else 'unsigned_Decides')} a{at} b{at}" for at, (_, kind) in enumerate(fields)]
        lines.append((name, alike(head, equal, lambda paths, one=one: f"{one} " + " ".join(f"({path} i)" for path in paths)) if fields else f"{head} search rules"))
    tree.lines(path, r"call_alike \(?call_\.(\w+)", lines)


def copy_of(name, fields):
    """The function that copies a call."""
    params = "".join(f"    {field}: &{kind},\n" for field, kind in fields)
    values = applied(f"variant.{name}", [f"{field}.now" for field, _ in fields])[1:-1]
    given = "".join(f"        {field}: {f'{field}.try_clone(alloc)?' if kind in EQUAL else '*' + field},\n" for field, kind in fields)
    return (f"/// A copy of `Call::{name}`.\npub fn copied_{snake(name)}(\n{params}    alloc: Global,\n) -> Result<Call, NoMemory>\n"
            f"    ensures {{ IfOk result (λ copy. copy ≡ {values}) }}\n{{\n    Ok(Call::{name} {{\n{given}    }})\n}}")


def of_caller(name, fields, doc):
    """The call of a caller of the running client."""
    params = "".join(f"        {field}: {kind},\n" for field, kind in fields)
    made = applied(f"call.{name}", [field for field, _ in fields])
    after = ("sem 𝓛 (follows_so (the_row L.row L.Ledger) (the_row L.row L.Ledger) self.entry.ghost_name none (λ _ _. ⊤) "
             f"(λ new. IsStep result (λ t. t.now) self.old (event.Call channel {made}) new))")
    return (f"    /// {doc}\n    pub fn {snake(name)}<R: Wait>(\n        &mut self,\n        rt: &R,\n        alloc: Global,\n        channel: u16,\n{params}"
            f"    ) -> Result<&Told, StepError>\n        ensures* after {{ {after} }}\n    {{\n        let call = Call::{name}{braced([field for field, _ in fields])};\n"
            f"        self.step(rt, alloc, Event::Call(channel, call))\n    }}")


def own_tables(tree):
    """Each table that goes by a call's variant."""
    marks, text = marks_of(tree), tree.read(f"{TYPES}/src/call.rt")
    calls = dict(declared(text, "Call"))
    docs = dict((name, doc) for doc, name in re.findall(r"/// (.*)\n    (\w+)(?: \{|,)\n", text))
    reply_kinds(tree)
    mark_names(tree, marks)
    equality(tree, calls, marks)
    for of, methods in rows_of(tree).items():
        names = [name for name in (of.capitalize() + m.variant for m in methods) if name in calls]
        copied = [name for name in names if any(kind in EQUAL for _, kind in calls[name])]
        if of in ("exchange", "queue", "basic"):
            path = f"{TYPES}/src/call/{of}.rt"
            tree.functions(path, [(f"copied_{snake(name)}", copy_of(name, calls[name])) for name in copied])
            tree.imports(path, "use lapin_methods::", [kind for name in copied for _, kind in calls[name] if kind in marks])
        path = f"crates/lapin_shared/src/calls/{of}.rt"
        if of != "connection":
            tree.functions(path, [(snake(name), of_caller(name, calls[name], docs[name])) for name in names])
            tree.imports(path, "use lapin_types::", [kind for name in names for _, kind in calls[name] if kind in marks])
    used = [kind for fields in calls.values() for _, kind in fields if kind in marks and kind != "BasicPublishOptions"]
    tree.imports("crates/lapin_text/src/queued.rt", "use lapin_types::", used)
