#!/usr/bin/env python3
"""Whether a session's memory stays flat over ten million events: a test outside the gate, of some minutes.

It builds the program bench/weeks.txt as bench/unproved.py builds the program, and looks at the memory that the process holds at each
line that it prints, one for each million events. The memory after the second line and after the last but one may differ by 1 MiB at
most: after the last one the program ends, and may be gone before it is asked.

    bench/weeks.py
"""
import os
import re
import shutil
import subprocess
import sys
import tempfile

import unproved

MOST = 1 << 20


def held(process):
    """What the process holds, in bytes; 0 where it has ended."""
    with open(f"/proc/{process.pid}/status", encoding="utf-8") as status:
        found = re.search(r"VmRSS:\s+(\d+)", status.read())
    return 1024 * int(found[1]) if found else 0


def main():
    unproved.USES = ["lapin_session", "lapin_types", "anyhow"]
    with tempfile.TemporaryDirectory() as folder:
        unproved.CRATE, unproved.MAIN = "weeks", os.path.join(folder, "main.rt")
        shutil.copy(f"{unproved.TOP}/bench/weeks.txt", unproved.MAIN)
        program = os.path.join(folder, "weeks")
        unproved.build(program)
        with subprocess.Popen([program], stdout=subprocess.PIPE, text=True) as process:
            told = []
            for line in process.stdout:
                told.append(held(process))
                print(f"{line.strip()} million events: {told[-1] / MOST:.2f} MiB", flush=True)
    if process.returncode != 0 or len(told) != 10:
        sys.exit(f"status {process.returncode} after {len(told)} lines")
    if told[-2] - told[1] > MOST:
        sys.exit(f"{(told[-2] - told[1]) / MOST:.2f} MiB more than after the second")


if __name__ == "__main__":
    main()
