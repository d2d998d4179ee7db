#!/usr/bin/env python3
"""Tells which clause refuses each wrong body, where the answers of its own function are taken away.

The prover refuses a wrong body also where a proof file of the same function names something that the edit took away, or where an answer
fits the old body alone: that shows nothing of the contract. So this script takes the function's answers (`proofs/../Answers.antt`,
`Proof.antt`) out of a copy of the crate and checks that function twice: as it stands, which leaves the goals that need an answer, and with
the edit. What the edit leaves open beyond those is what refuses it. Invariants of loops stay.

    bench/bare_bodies.py [--over FOLDER]              all, those of the gate and those of wrong/
    bench/bare_bodies.py [--over FOLDER] CRATE ..     those of a crate, or one alone, as lapin_ticket/NAME

It checks over the libraries that `rt ci` or `rt check` left proved in this checkout (`crates/NAME/out/rlib`), or in another one, FOLDER. It
prints a line an edit, and ends with status 1 where one is still proved.

    by CLAUSE ..      these clauses of the function, or of what it calls, refuse it
    not told apart    it leaves no other goals than the function as it stands: its answers are needed to tell
    whole             the edit changes no function's body (a constant, a type): the crate's own check has to refuse it
    PROVED            nothing refuses it: the contract is too weak, or the body is right
"""
import glob
import os
import re
import shutil
import subprocess
import sys
import tempfile

TOP = os.path.dirname(os.path.dirname(os.path.abspath(__file__)))
OPEN = re.compile(r"^note: `([^`]+)` of (proofs/\S+) must prove")
SAID = re.compile(r"^(?:note: )?(?:\./)?\S+:\d+:\d+: (?:error.*)")
FUNCTION = re.compile(r"^(\s*)(?:pub(?:\([a-z]+\))? )?(?:const )?(?:unsafe )?(?:extern \"C\" )?fn (\w+)")
IMPL = re.compile(r"^(\s*)(?:unsafe )?impl(?:<[^{]*?>)? (?:[\w:<>', ]+ for )?(\w+)")


def edits(words):
    """The edits that the words name, as pairs of a crate and a file; without words all."""
    found = []
    for pattern in ("crates/*/must-fail/*.edit", "wrong/*/*.edit"):
        for path in sorted(glob.glob(f"{TOP}/{pattern}")):
            crate = path.removeprefix(TOP + "/").split("/")[1]
            found.append((crate, path))
    if not words:
        return sorted(found)
    wanted = set(words)
    return sorted(it for it in found if it[0] in wanted or f"{it[0]}/{os.path.basename(it[1])[:-5]}" in wanted)


def pairs(path):
    """The file, the old and the new text of each change of an edit."""
    file, old, found = None, None, []
    with open(path, encoding="utf-8") as text:
        for line in text.read().split("\n"):
            if line.startswith("file: "):
                file = line[6:].strip()
            elif line.startswith("old: "):
                old = line[5:]
            elif line.startswith("new:"):
                found.append((file, old, line[5:]))
    return found


def function_at(file, text, place):
    """The path of the function whose body stands at a place of a source, and the folder of its answers; None where there is none."""
    lines = text[:place].count("\n")
    rows = text.split("\n")
    for row in range(lines, -1, -1):
        name = FUNCTION.match(rows[row])
        if name is None:
            if row < lines and rows[row].startswith("}"):
                return None
            continue
        module = re.sub(r"^src/|\.rt$", "", file)
        parts = [] if module in ("lib", "main") else module.split("/")
        if name[1]:
            for above in range(row, -1, -1):
                owner = IMPL.match(rows[above])
                if owner is not None and len(owner[1]) < len(name[1]):
                    parts.append(owner[2])
                    break
        parts.append(name[2])
        return "::".join(parts), "proofs/" + "/".join(parts)
    return None


class Kit:
    """The prover, over the proved libraries of a checkout."""

    def __init__(self, over):
        self.at = os.path.dirname(os.path.dirname(os.path.realpath(shutil.which("rt"))))
        self.over = over
        self.uses = {}
        with open(f"{TOP}/crates.txt", encoding="utf-8") as lines:
            for line in lines:
                name, colon, below = line.split("#")[0].partition(":")
                if colon:
                    self.uses[name.split()[0]] = below.split()

    def below(self, crate):
        """The libraries below a crate, lowest first, those of the kit among them."""
        found = []

        def visit(name):
            for it in self.uses.get(name, ()):
                if it not in found:
                    visit(it)
                    found.append(it)

        visit(crate)
        return found

    def words(self, crate, kept):
        """The command that checks a crate in whose folder it is run, with its kept work in a folder."""
        root = "src/main.rt" if os.path.isfile(f"{TOP}/crates/{crate}/src/main.rt") else "src/lib.rt"
        words = [f"{self.at}/bin/rattle", "check", "--crate-name", crate, root, "--extern", f"std={self.at}/rlibs/std.rlib"]
        words += ["-L", f"dependency={self.at}/rlibs"]
        for name in self.below(crate):
            library = f"{self.over}/crates/{name}/out/rlib/{name}.rlib" if name in self.uses else f"{self.at}/rlibs/{name}.rlib"
            if not os.path.exists(library):
                sys.exit(f"bare_bodies: {name} stands not proved in {self.over}: run rt ci {crate} there, or name another checkout by --over")
            words += ["--extern", f"{name}={library}", "-L", f"dependency={os.path.dirname(library)}"]
        words += ["--antt-project", f"{self.at}/rattle/logic/antt-project.json", "--logic-built", f"{self.at}/logic_built"]
        return [*words, "--links", f"{crate}=", "--incremental", kept]


class Crate:
    """A copy of a crate, and what each of its functions leaves open without its answers."""

    def __init__(self, kit, room, name):
        self.name, self.folder, self.left = name, f"{room}/{name}", {}
        for part in ("src", "specs", "proofs"):
            if os.path.isdir(f"{TOP}/crates/{name}/{part}"):
                shutil.copytree(f"{TOP}/crates/{name}/{part}", f"{self.folder}/{part}")
        os.makedirs(f"{room}/kept/{name}")
        self.words = kit.words(name, f"{room}/kept/{name}")

    def tried(self, function):
        """Checks one function: whether it is proved, the goals that are open, and the first other thing that was said."""
        words = [*self.words, "--only", f"{self.name}::{function}"]
        ran = subprocess.run(words, cwd=self.folder, stdin=subprocess.DEVNULL, stdout=subprocess.PIPE, stderr=subprocess.STDOUT, text=True, errors="replace")
        lines = ran.stdout.split("\n")
        goals = {found[1] for found in map(OPEN.match, lines) if found}
        said = next((it for it in lines if SAID.match(it)), "")
        if ran.returncode and not goals and not said:
            said = "; ".join(it for it in lines[-4:] if it)
        return ran.returncode == 0, goals, said

    def bare(self, answers):
        """Takes a function's answers out, and returns their texts."""
        kept = {}
        for name in ("Answers.antt", "Proof.antt"):
            path = f"{self.folder}/{answers}/{name}"
            if os.path.isfile(path):
                with open(path, encoding="utf-8") as text:
                    kept[path] = text.read()
                os.remove(path)
        return kept

    def open_as_it_stands(self, function, answers, kept):
        """The goals of a function without its answers."""
        if not kept:
            return set()
        if function not in self.left:
            self.left[function] = self.tried(function)[1]
        return self.left[function]

    def verdict(self, edit):
        """What refuses an edit."""
        changes = pairs(edit)
        texts = {}
        for file, old, new in changes:
            path = f"{self.folder}/{file}"
            if file not in texts:
                with open(path, encoding="utf-8") as text:
                    texts[file] = text.read()
            if texts[file].count(old) != 1:
                return f"BAD: its old text stands {texts[file].count(old)} times in {file}"
            place = texts[file].index(old)
            function = function_at(file, texts[file], place + len(old) - len(old.lstrip()))
            texts[file] = texts[file].replace(old, new)
        if function is None:
            return "whole"
        name, answers = function
        kept = self.bare(answers)
        before = {}
        try:
            stands = self.open_as_it_stands(name, answers, kept)
            for file, text in texts.items():
                path = f"{self.folder}/{file}"
                with open(path, encoding="utf-8") as was:
                    before[path] = was.read()
                with open(path, "w", encoding="utf-8") as out:
                    out.write(text)
            proved, goals, said = self.tried(name)
        finally:
            for path, text in {**kept, **before}.items():
                with open(path, "w", encoding="utf-8") as out:
                    out.write(text)
        if proved:
            return f"PROVED ({name})"
        more = sorted(goals - stands)
        if more:
            return f"by {', '.join(it.removeprefix('returns-clause-') for it in more)} ({name})"
        if goals:
            return f"not told apart ({name}): open both ways {', '.join(sorted(goals))}"
        return f"said ({name}): {said[:200]}"


def main(words):
    over = TOP
    if words[:1] == ["--over"] and len(words) > 1:
        over, words = os.path.abspath(words[1]), words[2:]
    chosen, kit, proved = edits(words), Kit(over), 0
    if not chosen:
        sys.exit("bare_bodies: there is no such wrong body")
    with tempfile.TemporaryDirectory(prefix="bare-bodies-") as room:
        crates = {}
        for name, edit in chosen:
            if name not in crates:
                crates[name] = Crate(kit, room, name)
            verdict = crates[name].verdict(edit)
            proved += verdict.startswith("PROVED")
            print(f"{name}/{os.path.basename(edit)[:-5]}: {verdict}", flush=True)
    print(f"{len(chosen)} tried, {proved} still proved")
    return 1 if proved else 0


if __name__ == "__main__":
    sys.exit(main(sys.argv[1:]))
