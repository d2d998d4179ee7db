#!/usr/bin/env python3
"""What of a method's frame is a function of its row: the tables of its name, its number and its fields, and their laws.

The rows stand in `crates/lapin_frames/src/`, a file a class. Made from them are a class's rows in the crates of text and of methods, and
the lines of definitions and proofs that go by a row. `method_tables.py` writes them, and says what is out of step.
"""
import os
import re
from typing import NamedTuple

CLASSES = ["connection", "channel", "access", "exchange", "queue", "basic", "confirm", "tx"]


class Method(NamedTuple):
    of: str
    variant: str
    number: int
    reserved: list
    first: list
    flags: list
    last: list

    def name(self):
        return self.of + "." + re.sub(r"(?<!^)(?=[A-Z])", "-", self.variant).lower()

    def fields(self):
        """Each field with its kind, in order. A reply text is a text, but where it is read from octets."""
        fields = self.first + [(flag, "flag") for flag in self.flags] + self.last
        return [(field, "text" if kind == "reply" else kind) for field, kind in fields]

    def args(self):
        return [field for field, _ in self.fields()]

    def seen(self, prefix):
        """The method as a pattern, or applied to its fields."""
        return f"({prefix}{self.variant} {' '.join(self.args())})" if self.args() else prefix + self.variant


class Tree:
    """The files of the tree, and what is to be written into them."""

    def __init__(self, top):
        self.top, self.new = top, {}

    def read(self, path):
        if path not in self.new:
            self.new[path] = open(f"{self.top}/{path}", encoding="utf-8").read()
        return self.new[path]

    def stale(self):
        """The files that differ from what is made; of code without its layout, which is `rt fmt`'s."""
        olds = {path: open(f"{self.top}/{path}", encoding="utf-8").read() for path in self.new}
        return [path for path, text in self.new.items() if plain(path, text) != plain(path, olds[path])]

    def entries(self, path, start, within=""):
        """The entries that begin so, by what the group of the pattern matches: (first row, row behind the last)."""
        rows = self.read(path).split("\n")
        begin = next((at for at, row in enumerate(rows) if re.match(within, row)), None)
        if begin is None:
            raise SystemExit(f"{path}: nothing there begins with {within}")
        found = {}
        for at in range(begin + (1 if within else 0), len(rows)):
            if within and rows[at] and rows[at][0] in "}]":
                break
            told = re.match(start, rows[at])
            if told and told[1] not in found:
                end = at + 1
                while end < len(rows) and continues(rows[at], rows[end]):
                    end += 1
                found[told[1]] = at, end
        return rows, found

    def lines(self, path, start, wanted, within="", before=None):
        """An entry a key, in the order wanted: one that lacks is put behind the one before it, one that differs is written anew."""
        for key, text in wanted:
            rows, found = self.entries(path, start, within)
            if not found:
                raise SystemExit(f"{path}: no line begins as {start}")
            if key not in found:
                at = found[before][1] if before in found else min(found.values())[0]
                rows[at:at] = text.split("\n")
            elif plain(path, "\n".join(rows[slice(*found[key])])) != plain(path, text):
                rows[slice(*found[key])] = text.split("\n")
            self.new[path] = "\n".join(rows)
            before = key

    def added(self, path, wanted, start):
        """Rows a key, in the order wanted, each where it lacks put behind those of the key before."""
        before = None
        for key, text in wanted:
            rows, found = self.entries(path, start)
            if key not in found:
                at = found[before][1] if before in found else min(found.values())[0]
                rows[at:at] = text.split("\n")
                self.new[path] = "\n".join(rows)
            before = key

    def functions(self, path, wanted):
        """The functions stand in the file, each where it lacks put behind the one before."""
        before = None
        for name, text in wanted:
            rows = self.read(path).split("\n")
            where = lambda one: next((at for at, row in enumerate(rows) if re.match(rf" *pub fn {one}\b", row)), None)
            if where(name) is None:
                at = where(before)
                end = next(row for row in range(at, len(rows)) if rows[row] == " " * (len(rows[at]) - len(rows[at].lstrip())) + "}")
                rows[end + 1 : end + 1] = [""] + text.split("\n")
                self.new[path] = "\n".join(rows)
            before = name

    def imports(self, path, start, names):
        """The names are among those that are imported by the list that begins so."""
        text = self.read(path)
        told = re.search(re.escape(start) + r"\{([^}]*)\}", text)
        if not told:
            raise SystemExit(f"{path}: no list begins with {start}")
        have = [name.strip() for name in told[1].split(",") if name.strip()]
        if not set(names) - set(have):
            return
        for name in names:
            if name not in have:
                have.insert(next((at for at, other in enumerate(have) if other > name), len(have)), name)
        self.new[path] = text[: told.start(1)] + ", ".join(have) + text[told.end(1) :]


def plain(path, text):
    return re.sub(r"\s+|,(?=\s*[})\]])", "", text) if path.endswith(".rt") else text


def continues(first, row):
    """Whether a row belongs to the entry of the first: it stands further in, or closes it."""
    depth = lambda one: len(one) - len(one.lstrip())
    return bool(row.strip()) and (depth(row) > depth(first) or depth(row) == depth(first) and row.strip()[0] in "})")


def rows_of(tree):
    """The methods of each class, in their order."""
    found = {}
    for of in CLASSES:
        text = tree.read(f"crates/lapin_frames/src/{of}.rt")
        names = lambda row: [one.strip() for one in row.split(",") if one.strip()]
        kinds = lambda row: [tuple(one.split(": ")) for one in names(row)]
        found[of] = [
            Method(of, variant, int(number), names(reserved), kinds(first), names(flags), kinds(last))
            for variant, number, reserved, first, flags, last in re.findall(r"(\w+) (\d+) \[([^]]*)\] \{([^}]*)\} \[([^]]*)\] \{([^}]*)\}", text)
        ]
    return found


# ---- text

FIELD = {"text": "text", "table": "table", "flag": "flag", "short": "short_number", "long": "long_number", "wide": "wide_number"}


def kinds_of(of):
    """The type of the kinds of a class's methods."""
    return "ExchangeMethodKind" if of == "exchange" else of.capitalize() + "Kind"


def listed(parts):
    return " ∷ ".join(parts + ["[]"])


def nested(parts, end):
    return f"({parts[0]}, {nested(parts[1:], end)})" if parts else end


def text_tables(tree, of, methods):
    """The tables of `lapin_method_text`: the row, the kind and the name as code, and as definitions with their laws."""
    crate, kinds = "crates/lapin_method_text", kinds_of(of)
    row = lambda m: ", ".join(f"{field}: {kind}" for field, kind in m.fields())
    each = lambda line: [(m.variant, line(m)) for m in methods]
    braced = lambda m: f"{{ {row(m)} }}" if m.fields() else "{}"
    tree.lines(f"{crate}/src/{of}.rt", r'            (\w+) b"', each(lambda m: f'            {m.variant} b"{m.name()}" {braced(m)},'))
    file = f"{crate}/src/kinds.rt"
    tree.lines(file, r"    (\w+),", each(lambda m: f"    {m.variant},"), rf"pub enum {kinds} ")
    tree.lines(file, rf"    MethodKind::\w+\({kinds}::(\w+)\)", each(lambda m: f"    MethodKind::{of.capitalize()}({kinds}::{m.variant}),"), "pub const KINDS")
    tree.lines(file, r"        \w+::(\w+) => b", each(lambda m: f'        {kinds}::{m.variant} => b"{m.name()}",'), rf"fn name_of_{of}\(")
    kind, method = f"{of}_kind.", f"{of}_method."
    values = lambda m: "".join(" v" + ".1" * at + ".0" for at in range(len(m.fields())))
    tokens = lambda m: listed([f'codes "{m.name()}"'] + [f"token {FIELD[of]} {field}" for field, of in m.fields()])
    file = f"{crate}/specs/Methods.antt"
    tree.lines(file, rf"{of}_name {kind}(\w+) =", each(lambda m: f'{of}_name {kind}{m.variant} = codes "{m.name()}"'))
    tree.lines(file, rf"{of}_fields {kind}(\w+) =", each(lambda m: f"{of}_fields {kind}{m.variant} = {listed([FIELD[of] for _, of in m.fields()])}"))
    tree.lines(file, rf"{of}_made {kind}(\w+) v =", each(lambda m: f"{of}_made {kind}{m.variant} v = {method}{m.variant}{values(m)}"))
    tree.lines(file, rf"{of}_parts \(?{method}(\w+)", each(lambda m: f"{of}_parts {m.seen(method)} = ({kind}{m.variant}, {nested(m.args(), 'tt')})"))
    tree.lines(file, rf"{of}_tokens \(?{method}(\w+)", each(lambda m: f"{of}_tokens {m.seen(method)} = {tokens(m)}"))
    at = lambda m: f"{of}_at {kind}{m.variant} pieces = fields_at ({of}_fields {kind}{m.variant}) ({of}_made {kind}{m.variant}) pieces"
    tree.lines(f"{crate}/specs/MethodReading.antt", rf"{of}_at {kind}(\w+) pieces =", each(at))
    file = f"{crate}/proofs/MethodLaws.antt"
    rows = "record { named = refl; plain = refl; reads = λ _. refl; parted = λ _. refl }"
    tree.lines(file, rf"{of}_rows {kind}(\w+) =", each(lambda m: f"{of}_rows {kind}{m.variant} = {rows}"))
    tree.lines(file, rf"{of}_laws \(?{method}(\w+)", each(lambda m: f"{of}_laws {m.seen(method)} = record {{ remade = refl; spells = refl }}"))


# ---- methods

EQUAL = {"text": "text_alike", "flag": "booleans_Decides", "table": "same_by-Decides table_code"}


def alike(head, equals, made):
    """That two values are equal where their fields are: from what says so of each field, and the value of equal fields."""
    last = len(equals) - 1
    both, closed = equals[last], "cc"
    for equal in reversed(equals[:last]):
        both, closed = f"both ({equal}) ({both})", f"(cc, {closed})"
    paths = ["e" + ".1" * at + (".0" if at < last else "") for at in range(last + 1)]
    parts = f"through ({both})", f"(λ e i. {made(paths)})", f"(λ e. {closed})"
    return f"{head} {' '.join(parts)}" if last == 0 else "\n    ".join([head, *parts])


def equal_line(m):
    one, count = f"{m.of}_.{m.variant}", len(m.fields())
    sides = [f"({one} {' '.join(side + str(at) for at in range(count))})" if count else one for side in "ab"]
    head = f"{m.of}_alike {' '.join(sides)} ="
    if count <= 5 and "table" not in [kind for _, kind in m.fields()]:
        return f"{head} search rules"
    equals = [f"{EQUAL.get(kind, 'unsigned_Decides')} a{at} b{at}" for at, (_, kind) in enumerate(m.fields())]
    return alike(head, equals, lambda paths: f"{one} " + " ".join(f"({path} i)" for path in paths))


def method_tables(tree, of, methods):
    """The tables of `lapin_methods`: how a method is shown, its number, and when two of them are equal."""
    crate, shown = "crates/lapin_methods", lambda kind: "flag" if kind == "flag" else "plain"
    row = lambda m: f"{{ {', '.join(f'{field}: {shown(kind)}' for field, kind in m.fields())} }}" if m.fields() else "{}"
    wanted = [(m.variant, f'        {m.variant} "{m.name()}" {row(m)},') for m in methods]
    tree.lines(f"{crate}/src/shown.rt", r'        (\w+) "', wanted, rf"fn show_{of}<")
    dots = lambda m: " { .. }" if m.fields() else ""
    wanted = [(m.variant, f"            {of.capitalize()}Method::{m.variant}{dots(m)} => {m.number},") for m in methods]
    tree.lines(f"{crate}/src/{of}.rt", r"            \w+Method::(\w+).* => \d+,", wanted)
    wanted = [(m.variant, f"{of}_number {m.seen(of + '_.')} = {m.number}") for m in methods]
    tree.lines(f"{crate}/specs/Numbers.antt", rf"{of}_number \(?{of}_\.(\w+)", wanted)
    path = f"{crate}/proofs/{of.capitalize()}Alike.antt"
    if os.path.isfile(f"{tree.top}/{path}"):
        tree.lines(path, rf"{of}_alike \(?{of}_\.(\w+)", [(m.variant, equal_line(m)) for m in methods])


# ---- bytes

RESERVED = {"short": ("short 0", "short_at"), "long": ("long 0", "long_at"), "text": ("text []", "string_at"), "string": ("counted []", "counted_at")}
NUMBER = {"short": 2, "long": 4, "wide": 8}

# Octets of a table are read as they are.
READ = {"table": "opaque"}
LAWS = {"table": "arguments"}


def written(field, kind):
    return f"{ {'table': 'arguments_bytes', 'reply': 'text'}.get(kind, kind)} {field}"


def again(field, kind):
    """A field as it is read once it was written: a table as its octets."""
    return f"(opaque (table_octets {field}))" if kind == "table" else field


def pieces(m):
    """The bytes of a method's number and fields, each as (its bytes, what tells that they are read, the field that has to fit)."""
    out = [(f"short {m.number}", None)] + [(RESERVED[kind][0], ("reserved", kind)) for kind in m.reserved]
    out += [(written(field, kind), (field, kind)) for field, kind in m.first]
    out += [(f"flags ({listed(m.flags)})", None)] if m.flags else []
    return out + [(written(field, kind), (field, kind)) for field, kind in m.last]


def back(m):
    """That a method which was written is read."""
    parts = pieces(m)
    fits = [field for field, _ in m.first + m.last]
    end = "refl"
    if m.flags:
        bits = [f"(flag_{2 ** at} {' '.join(m.flags[: at + 1])} {'(' + listed(m.flags[at + 1 :]) + ')' if m.flags[at + 1 :] else '[]'} i)" for at in range(len(m.flags))]
        args = [again(field, kind) for field, kind in m.first] + bits + [again(field, kind) for field, kind in m.last]
        end = f"(λ i. Some ({m.of}_method.{m.variant} {' '.join(args)}, rest))"
    rest = "rest"
    for bytes_, read in reversed(parts[1:]):
        if read and read[0] == "reserved":
            if read[1] == "text":
                end = f"(then_on _ _ _ _ (string_back [] {rest}) {end})"
            elif read[1] == "string":
                end = f"(then_on _ _ _ _ (counted_back [] {rest} (omega arith)) {end})"
        elif read:
            field, kind = read
            fit = f"fit.{fits.index(field)}" if len(fits) > 1 else "fit"
            if kind in NUMBER:
                end = f"(rw (from_be_bytes-to_be_bytes_{NUMBER[kind]} {field} {fit}) {end})"
            else:
                end = f"(then_on _ _ _ _ ({LAWS.get(kind, kind)}_back {field} {rest} {fit}) {end})"
        rest = f"({bytes_} ++ {rest})"
    if end == "refl":
        return "refl"
    joined = " ".join(f"({bytes_})" for bytes_, _ in parts)
    return f"ap (numbered {m.of}_at) (joined_{len(parts)} {joined} rest) ∙ {end}"


def read_line(m):
    """How the fields of a method are read, from its number on."""
    out, at = "", "bytes"
    for place, kind in enumerate(m.reserved):
        out, at = out + f"{RESERVED[kind][1]} {at} >>= λ r{place + 1}. ", f"r{place + 1}.1"
    for field, kind in m.first + ([("flags", "octet")] if m.flags else []) + m.last:
        out, at = out + f"{READ.get(kind, kind)}_at {at} >>= λ {field}. ", f"{field}.1"
    bits = [f"(bit_at {2 ** place} flags.0)" for place in range(len(m.flags))]
    args = [f"{field}.0" for field, _ in m.first] + bits + [f"{field}.0" for field, _ in m.last]
    made = f"({m.of}_method.{' '.join([m.variant] + args)})" if args else f"{m.of}_method.{m.variant}"
    return f"    if n == {m.number} then ({out}Some ({made}, {at})) else"


def fits_line(m):
    fit = {"text": "TextFits {0}", "reply": "TextFits {0}", "table": "ArgumentsFit {0}"}
    parts = [fit.get(kind, f"({{0}} < 2 ^ {8 * NUMBER.get(kind, 0)})").format(field) for field, kind in m.first + m.last]
    return f"{m.of.capitalize()}Fits {m.seen(m.of + '_method.')} = {' × '.join(parts) or 'Unit {0}'}"


def tables_in(m):
    """The fields that are tables."""
    return [field for field, kind in m.first + m.last if kind == "table"]


def carried_lines(tree, of, methods):
    """The lines of the methods that have a table: which it is, and what is read of it once it was written."""
    having = [m for m in methods if tables_in(m)]
    if not having:
        return
    path, method = "crates/lapin_frames/specs/Carried.antt", f"{of}_method."
    seen = lambda m: m.seen(method)
    read = lambda m: f"{method}{m.variant} " + " ".join(again(field, kind) for field, kind in m.fields())
    tree.lines(path, rf"{of}_arguments \({method}(\w+)", [(m.variant, f"{of}_arguments {seen(m)} = Some {tables_in(m)[0]}") for m in having])
    tree.lines(path, rf"{of}_again \({method}(\w+)", [(m.variant, f"{of}_again {seen(m)} = {read(m)}") for m in having])
    path = "crates/lapin_frames/proofs/AgainLaws.antt"
    same = lambda m: f"{of}_same {seen(m)} h = ap ({' '.join([method + m.variant] + m.args()[:-1])}) (table_again {m.args()[-1]} h)"
    tree.lines(path, rf"{of}_same \({method}(\w+)", [(m.variant, same(m)) for m in having])
    front = lambda m: " ++ ".join(bytes_ for bytes_, _ in pieces(m)[:-1])
    ends = lambda m: f"{of}_ends {seen(m)} t e = ends_with ({front(m)}) {m.args()[-1]} t e"
    tree.lines("crates/lapin_frames/proofs/CarriedLaws.antt", rf"{of}_ends \({method}(\w+)", [(m.variant, ends(m)) for m in having])


def tabled_line(m):
    """That the table of a method is the last that is read of it: step by step, each with what it takes."""
    steps = [(f"r{place + 1}", RESERVED[kind][1][:-3]) for place, kind in enumerate(m.reserved)]
    steps += [(field, kind) for field, kind in m.first] + ([("marks", "octet")] if m.flags else []) + [(field, kind) for field, kind in m.last]
    tables = tables_in(m)
    if tables:
        bits = [f"(bit_at {2 ** place} marks.0)" for place in range(len(m.flags))]
        args = [f"{field}.0" for field, kind in m.first if kind != "table"] + bits
        flags = f"(flags ({listed([bit[1:-1] for bit in bits])}))"
        long = [f"(short {m.number})"] + [f"({RESERVED[kind][0]})" for kind in m.reserved]
        long += [f"({kind} {field}.0)" for field, kind in m.first if kind != "table"] + ([flags] if m.flags else []) + ["(arguments_bytes (opaque octets))"]
        steps = steps[:-1]
        at = f"{steps[-1][0]}.1"
        out = f"last {at} ({m.of}_method.{m.variant} {' '.join(args)}) (λ t. refl) (λ octets. omega (arith, long_{len(long)} {' '.join(long)}, table_long octets))"
    else:
        out = "made refl"
    for place in reversed(range(len(steps))):
        name, kind = steps[place]
        at = f"{steps[place - 1][0]}.1" if place else "bytes"
        read = f"({READ.get(kind, kind)}_at {at})"
        out = f"step {read} ({kind}_takes {at}) (λ {name}. {out})" if tables else f"past {read} (λ {name}. {out})"
    return f"    when n == {m.number} have ({out if tables else f'none_in ({out})'}) else  -- {m.of}.{m.variant}"


def byte_tables(tree, of, methods):
    """The tables of `lapin_frames`: a method's bytes, how they are read, when they fit, and that what was written is read."""
    crate, method = "crates/lapin_frames", f"{of}_method."
    each = lambda line: [(m.variant, line(m)) for m in methods]
    bytes_of = lambda m: " ++ ".join(part for part, _ in pieces(m))
    tree.lines(f"{crate}/specs/Methods.antt", rf"{of}_bytes \(?{method}(\w+)", each(lambda m: f"{of}_bytes {m.seen(method)} = {bytes_of(m)}"))
    tree.lines(f"{crate}/specs/MethodReading.antt", rf"    if n == \d+ then \(.*?\b{method}(\w+)", each(read_line))
    tree.lines(f"{crate}/specs/FrameFits.antt", rf"{of.capitalize()}Fits \(?{method}(\w+)", each(fits_line))
    carried_lines(tree, of, methods)
    if any(tables_in(m) for m in methods):
        tree.lines(f"{crate}/proofs/TableLaws.antt", rf"    when n == \d+ have .* -- {of}\.(\w+)", each(tabled_line))
    laws = {"exchange": "QueueLaws", "queue": "QueueLaws", "basic": "BasicLaws"}.get(of, "SmallClassLaws")
    path = f"{crate}/proofs/{laws}.antt"
    tree.lines(path, rf"{of}_back \(?{method}(\w+)", each(lambda m: f"{of}_back {m.seen(method)} rest fit = {back(m)}"))
    needed = {f"joined_{len(pieces(m))}" for m in methods if back(m) != "refl"}
    tree.imports(path, "use Rattle.lapin_frames.proofs.Joined.", sorted(needed))


def frame_tables(tree):
    """Each table that goes by the rows of frames."""
    for of, methods in rows_of(tree).items():
        text_tables(tree, of, methods)
        method_tables(tree, of, methods)
        byte_tables(tree, of, methods)
    path = "crates/lapin_method_text/src/kinds.rt"
    count = sum(len(methods) for methods in rows_of(tree).values())
    tree.new[path] = re.sub(r"\[MethodKind; \d+\]", f"[MethodKind; {count}]", tree.read(path))
