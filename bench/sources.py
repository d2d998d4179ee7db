"""Reads crates.txt and the sources of the crates: which functions and types are public, with their comments, signatures and clauses.

Used by crates.py, signatures.py and promises.py, which make pages of them.
"""
import glob
import os
import re
import sys

TOP = os.path.dirname(os.path.dirname(os.path.abspath(__file__)))


class Function:
    """A public function: its file, its name with the type's, its comment, its signature, the names of what it asks and of what it gives,
    whether it is a law, and whether C sees it."""

    def __init__(self, path, name, comment, signature, clauses):
        self.path, self.name, self.comment, self.signature = path, name, comment, signature
        self.asks, self.gives = ([n or ".." for kind, n in clauses if kind == k] for k in ("requires", "ensures"))
        generics = re.search(r"fn \w+(<.*?>)?(?=\()", signature, re.S)
        taken, answered = parted(signature[generics.end() :])
        changes = any("&" not in one or "&mut" in one for one in taken.split(",") if one.strip())
        self.is_law = bool(self.gives) and (os.path.basename(path) == "laws.rt" or "->" not in answered and not changes)
        self.is_export = 'extern "C"' in signature


def parted(text):
    """What stands in the parentheses that open a text, and what stands behind them."""
    depth = 0
    for at, sign in enumerate(text):
        depth += (sign == "(") - (sign == ")")
        if depth == 0:
            return text[1:at], text[at + 1 :]


def groups():
    """The headings of crates.txt, each with its crates."""
    found = []
    for line in open(f"{TOP}/crates.txt", encoding="utf-8").read().splitlines()[1:]:
        if line.startswith("# "):
            found.append((line[2:], []))
        elif line:
            found[-1][1].append(re.match(r"\w+", line).group(0))
    return found


def header(text, start):
    """The signature and the clauses of the function that begins at `start`: (signature, [(keyword, name)])."""
    depth, clauses, signature_end, at = 0, [], None, start
    while at < len(text):
        if text.startswith("//", at):
            at = text.index("\n", at)
            continue
        clause = depth == 0 and re.compile(r"(ensures|requires|decreases)\b\*?\s*(\w*)\s*\{").match(text, at)
        if clause:
            signature_end = signature_end or at
            clauses.append((clause.group(1), clause.group(2)))
            at = matching(text, clause.end() - 1)
            continue
        if depth == 0 and text[at] in "{;":
            return text[start : signature_end or at], clauses
        depth += (text[at] in "([") - (text[at] in ")]")
        at += 1
    return text[start:at], clauses


def matching(text, at):
    """The place behind the brace that closes the one at `at`."""
    depth = 0
    while True:
        depth += (text[at] == "{") - (text[at] == "}")
        at += 1
        if depth == 0:
            return at


def functions(crate):
    """The public functions of a crate, in the order of its files and lines."""
    found = []
    for path in sorted(glob.glob(f"{TOP}/crates/{crate}/src/**/*.rt", recursive=True)):
        text = open(path, encoding="utf-8").read()
        place, owner, is_trait, comment = 0, "", False, []
        for line in text.splitlines(keepends=True):
            opened = re.match(r"(impl|pub trait)\b(?:<[^>]*>)?\s*(.*?)\s*\{", line)
            if opened:
                is_trait = opened.group(1) == "pub trait"
                owner = None if " for " in opened.group(2) else re.match(r"\w+", opened.group(2)).group(0) + "::"
            elif line.rstrip() == "}":
                owner, is_trait = "", False
            start = re.match(r'(\s*)(pub )?(?:extern "C" )?fn (\w+)', line)
            if line.strip().startswith("///"):
                comment.append(line.strip()[3:].strip())
            elif start:
                if start.group(2) or is_trait:
                    if owner is not None:
                        found.append(Function(path, (owner if start.group(1) else "") + start.group(3), comment, *header(text, place)))
                comment = []
            elif line.strip() and not line.strip().startswith("#["):
                comment = []
            place += len(line)
    return found


def types(crate):
    """The public structs, enums, traits and types of a crate, in the order of its files and lines: (file, name, source without comments)."""
    found = []
    for path in sorted(glob.glob(f"{TOP}/crates/{crate}/src/**/*.rt", recursive=True)):
        text = re.sub(r"//.*", "", open(path, encoding="utf-8").read())
        for start in re.finditer(r"^pub (?:struct|enum|trait|type) (\w+)", text, re.M):
            end = min(at for at in (text.find(sign, start.end()) for sign in "{;") if at >= 0)
            found.append((path, start.group(1), text[start.start() : matching(text, end) if text[end] == "{" else end]))
    return found


def uses(crate):
    """What a crate gives on: each `pub use` of its own modules or of another crate, as (whose, names)."""
    text = open(f"{TOP}/crates/{crate}/src/lib.rt", encoding="utf-8").read()
    given = re.findall(r"^pub use (\w+)::(.*?);", text, re.M | re.S)
    return [(whose, re.findall(r"\w+", names)) for whose, names in given]


def is_given(crate, path, name):
    """The crate gives the name to those that list it, of the file where it stands."""
    text = open(f"{TOP}/crates/{crate}/src/lib.rt", encoding="utf-8").read()
    modules = re.findall(r"^pub mod (\w+);", text, re.M)
    inside = os.path.splitext(os.path.relpath(path, f"{TOP}/crates/{crate}/src"))[0]
    return any(name in names for _, names in uses(crate)) or inside in ("lib", *modules)


def is_public(crate, function):
    """The crate gives the function's name, or its type's, to those that list it, or C sees it."""
    return is_given(crate, function.path, function.name.split("::")[0]) or function.is_export


def opening(crate):
    """The first sentence of a crate's own comment."""
    for name in ("lib", "main"):
        path = f"{TOP}/crates/{crate}/src/{name}.rt"
        if os.path.exists(path):
            return sentence([line[3:].strip() for line in open(path, encoding="utf-8").read().splitlines() if line.startswith("//!")])


def sentence(comment, longest=None):
    """The first sentence of a comment, cut at a word where it is longer than that."""
    words = " ".join(comment[: comment.index("")] if "" in comment else comment)
    first = re.split(r"(?<=[^.]\.)\s+(?=[A-Z`])", words, maxsplit=1)[0].replace("|", "\\|")
    if longest is None or len(first) <= longest:
        return first
    cut = first[: first.rindex(" ", 0, longest - 3)]
    if cut.count("`") % 2:
        cut = cut[: cut.rindex("`")]
    return cut.rstrip(" ,;:(") + " .."


def kept(page, text, script):
    """Writes a page, or with `--check` ends with status 1 where it isn't this text."""
    if "--check" not in sys.argv[1:]:
        with open(f"{TOP}/docs/{page}", "w", encoding="utf-8") as file:
            file.write(text)
        return
    try:
        with open(f"{TOP}/docs/{page}", encoding="utf-8") as file:
            is_kept = file.read() == text
    except FileNotFoundError:
        is_kept = False
    if not is_kept:
        print(f"docs/{page} isn't what the sources give: bench/{script} writes it anew")
        sys.exit(1)
