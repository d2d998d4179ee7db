#!/usr/bin/env python3
"""Tells which functions of a crate take the time of its proof, and for what.

    cd crates/NAME && rm -rf out/incremental && mkdir -p out/incremental && rt check --jobs 1
    bench/function_times.py crates/NAME/out/incremental [ROWS]

A check keeps a file of each module that it checked, one after another, so the time between two files is what the later one took. Of each
function this prints the seconds of all its modules, its share, and the dearest kinds: `Lts` are the steps of its code, `Layout` the layouts
of the types that it touches, `Code` its code, `Tie` and `Reads` what joins these, `Proof` what the prover or an answer did. A name that
begins with `+` is a cycle of functions; other names are files of proofs and specs. It holds for a check with one job from nothing alone.
"""

import collections
import os
import re
import sys

KIND = re.compile(
    r"\.(Lts|Proof|Tie|Reads|Kinds|Code|Carried|Goals|Named|Layout|Met|Given|View|Statement|Key|Reach|Symbol|Answers|Invariants)\b.*"
)


def modules_of(folder):
    """The modules that a check kept, in the order in which they were checked, each with the seconds that it took."""
    found = [(os.stat(f"{at}/{name}").st_mtime_ns, name.removesuffix(".oantt")) for at, _, names in os.walk(folder) for name in names if name.endswith(".oantt")]
    found.sort()
    return [(name, (time - before) / 1e9) for (before, _), (time, name) in zip(found, found[1:])]


def main(folder, rows=40):
    functions, kinds = collections.Counter(), collections.defaultdict(collections.Counter)
    for module, seconds in modules_of(folder):
        name = re.sub(r"^Rattle-lapin_\w+?-(proofs|specs)\.?", "", module).removesuffix(".decls")
        kind = KIND.search(name)
        name = KIND.sub("", name)
        functions[name] += seconds
        kinds[name][kind[1] if kind else "other"] += seconds
    whole = sum(functions.values())
    print(f"{whole:.1f} seconds")
    for name, seconds in functions.most_common(int(rows)):
        of_kinds = ", ".join(f"{kind} {time:.1f}" for kind, time in kinds[name].most_common(5) if time >= 0.1)
        print(f"{seconds:8.2f} {100 * seconds / whole:5.1f} %  {name}: {of_kinds}")


if __name__ == "__main__":
    if len(sys.argv) not in (2, 3) or not os.path.isdir(sys.argv[1]):
        sys.exit(__doc__)
    main(*sys.argv[1:])
