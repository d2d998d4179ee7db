#!/usr/bin/env python3
"""Refuses each growth of a session in turn, one number per run, and looks whether anything changed by it.

The test `script_all` of `lapin_channel_tests` makes a script of each kind of event. Where a step finds no memory it compares what is
seen of the session (states, what is ready, what waits, the last tag) with what was seen before, makes the step again, and goes on by
the script's records. This script builds it without proofs, as `bench/unproved.py` builds the program, and runs it once for each
call of `malloc` and `realloc`, which is refused. It says how many runs there were and how many failed, and ends with 1 where one did.

    bench/refused_memory.py
"""
import os
import re
import subprocess
import sys
import tempfile

import unproved

CRATE, TEST = "lapin_channel_tests", "script::script_all::script_all"

# What stands before the C library's own calls: the call of the wanted number finds no memory.
REFUSING = r"""
#define _GNU_SOURCE
#include <dlfcn.h>
#include <stdio.h>
#include <stdlib.h>
#include <unistd.h>
static unsigned long asked, wanted;
__attribute__((constructor)) static void begin(void) {
    const char *number = getenv("REFUSED");
    wanted = number ? strtoul(number, 0, 10) : 0;
    asked = 0;
}
__attribute__((destructor)) static void end(void) {
    char text[40];
    int length = snprintf(text, sizeof text, "growths %lu\n", asked);
    if (write(2, text, length) < 0) _exit(1);
}
void *malloc(size_t size) {
    static void *(*real)(size_t);
    if (!real) real = dlsym(RTLD_NEXT, "malloc");
    return ++asked == wanted ? 0 : real(size);
}
void *realloc(void *kept, size_t size) {
    static void *(*real)(void *, size_t);
    if (!real) real = dlsym(RTLD_NEXT, "realloc");
    return ++asked == wanted ? 0 : real(kept, size);
}
"""


def built(folder):
    """The test as a program, and what refuses."""
    plain = unproved.words

    def words():
        rest = plain()
        place = rest.index("--crate-name") + 3
        return ["--crate-name", CRATE, "--test", f"{unproved.TOP}/crates/{CRATE}/src/lib.rt", *rest[place:]]

    unproved.CRATE, unproved.words = CRATE, words
    unproved.build(f"{folder}/script")
    with open(f"{folder}/refusing.c", "w", encoding="utf-8") as file:
        file.write(REFUSING)
    subprocess.run(["cc", "-shared", "-fPIC", "-O1", "-o", f"{folder}/refusing.so", f"{folder}/refusing.c", "-ldl"], check=True)
    return f"{folder}/script", f"{folder}/refusing.so"


def run(program, refusing, number):
    """The status of a run in which this growth is refused (0: none), what it said, and how many growths there were."""
    env = {"LD_PRELOAD": refusing, "REFUSED": str(number)}
    ran = subprocess.run([program, TEST], env=env, stdout=subprocess.PIPE, stderr=subprocess.PIPE, text=True, errors="replace", timeout=60)
    found = re.findall(r"^growths (\d+)$", ran.stderr, re.M)
    # A run that is stopped tells no number.
    return ran.returncode, (ran.stdout + ran.stderr).strip(), int(found[-1]) if found else number


def main():
    with tempfile.TemporaryDirectory() as folder:
        program, refusing = built(folder)
        status, said, growths = run(program, refusing, 0)
        if status:
            sys.exit(f"the script fails with ample memory:\n{said}")
        number, failed = 1, []
        while number <= growths:
            status, said, growths = run(program, refusing, number)
            if status:
                failed.append(number)
                print(f"growth {number}: {said[-400:]}")
            number += 1
    print(f"{number - 1} growths refused, one a run; {len(failed)} runs failed")
    return 1 if failed else 0


if __name__ == "__main__":
    sys.exit(main())
