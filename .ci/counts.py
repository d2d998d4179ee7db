"""Hands on what the gate prints, a line behind, and behind it what was done in this run, what was kept and what the run took. Its last line
goes to the file that is named, for what the gate has to say before it."""
import os
import re
import sys
import time

# The kit's own words at the end, where all is well and not all was done in this run.
SHARE = re.compile(r"done in this run: (\d+) of the (\d+) proofs")
EDITS = re.compile(r"(\d+) of the (\d+) must-fail edits;")
LINES = {
    "proved": re.compile(r"^(?:rt: )?\w+(?:: its tests are)? proved$"),
    "kept": re.compile(r"^(?:rt: )?\w+ is kept: "),
    "refused": re.compile(r"^(?:rt: )?must-fail \S+: refused, as it must be"),
    "runs": re.compile(r"^(?:rt: )?\w+ ran(?: \(|,)"),
}
TESTS = re.compile(r"^test result: .*?(\d+) passed; (\d+) failed")


class Counts:
    def __init__(self):
        self.of = dict.fromkeys(LINES, 0)
        self.passed = self.failed = self.programs = 0
        self.proofs = self.edits = None

    def read(self, line):
        for name, form in LINES.items():
            self.of[name] += bool(form.match(line))
        if found := TESTS.match(line):
            self.passed, self.failed, self.programs = self.passed + int(found[1]), self.failed + int(found[2]), self.programs + 1
        if found := SHARE.search(line):
            self.proofs = int(found[1]), int(found[2]) - int(found[1])
            edits = EDITS.search(line)
            self.edits = (int(edits[1]), int(edits[2]) - int(edits[1])) if edits else (0, 0)

    def told(self):
        proofs = self.proofs or (self.of["proved"], self.of["kept"])
        edits = self.edits or (self.of["refused"], 0)
        return (
            f"gate: proofs of crates and of their tests: {proofs[0]} done, {proofs[1]} kept; "
            f"wrong bodies: {edits[0]} tried, {edits[1]} kept; "
            f"tests: {self.passed + self.failed} run in {self.programs} programs, {self.failed} failed, none kept; "
            f"the program: {self.of['runs']} runs"
        )


def processor_seconds():
    """What all processors of the machine have worked since it began, if it tells."""
    try:
        ticks = open("/proc/stat", encoding="ascii").readline().split()[1:4]
    except OSError:
        return None
    return sum(map(int, ticks)) / os.sysconf("SC_CLK_TCK")


def took(begun, worked):
    """What the run took: by the clock, and of the machine's processors, with all else that they did meanwhile."""
    told = f"gate: {(time.time() - begun) / 60:.1f} minutes by the clock"
    return told if worked is None else told + f", {(processor_seconds() - worked) / 60:.1f} processor minutes of this machine"


def main():
    counts, last, begun, worked = Counts(), None, time.time(), processor_seconds()
    sys.stdin.reconfigure(errors="replace")
    sys.stdout.reconfigure(errors="replace")
    for line in iter(sys.stdin.readline, ""):
        if last is not None:
            print(last, flush=True)
        last = line.rstrip("\n")
        counts.read(last)
    print(counts.told())
    print(took(begun, worked), flush=True)
    with open(sys.argv[1], "w", encoding="utf-8") as kept:
        print(last if last is not None else "0 passed, 1 failed", file=kept)


main()
