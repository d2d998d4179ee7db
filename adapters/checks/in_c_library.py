"""The library's border in C and what is compiled of it: against no broker."""
import os
import re
import shutil
import subprocess
import sys

import library
from checks.common import ADAPTERS, BIN, address, rabbit, said, test

CHECKS = f"{ADAPTERS}/c/checks"
STRICT = ["-Wall", "-Wextra", "-Wpedantic", "-Wshadow", "-Wconversion", "-Werror"]


# How programs are made and run: an instrument's flags, and the words before a program's own.
HOW = {"flags": [], "before": []}


def program(name, source=None, more=()):
    """A program of adapters/c/checks, or of this source, compiled once as C11 without a warning."""
    path = f"{BIN}/{name}{''.join(HOW['flags'])}{len(HOW['before'])}".replace("=", "-").replace(",", "-")
    if not os.path.exists(path):
        words = [os.environ.get("CC", "cc"), "-std=c11", "-O1", *STRICT, *HOW["flags"], "-o", f"{path}.made", source or f"{CHECKS}/{name}.c",
                 f"-L{BIN}", "-llapin", f"-Wl,-rpath,{BIN}", *more]
        subprocess.run(words, check=True)
        with open(path, "w", encoding="utf-8") as file:
            file.write(f"#!/bin/sh\nexec {' '.join(HOW['before'])} {path}.made \"$@\"\n")
        os.chmod(path, 0o755)
    return path


class by:
    """Within it programs are made with these flags and run behind these words."""

    def __init__(self, flags=(), before=()):
        self.how = {"flags": list(flags), "before": list(before)}

    def __enter__(self):
        self.was = dict(HOW)
        HOW.update(self.how)

    def __exit__(self, *_):
        HOW.update(self.was)


@test
def c_compiles_by_each_standard_without_a_warning():
    sources = [f"{folder}/{name}" for folder in (f"{ADAPTERS}/c/tutorials", CHECKS) for name in sorted(os.listdir(folder)) if name.endswith(".c")]
    compilers = [(os.environ.get("CC", "cc"), ["-std=c99"])]
    compilers += [(name, ["-std=c++17", "-x", "c++"]) for name in [os.environ.get("CXX", "c++")] if shutil.which(name)]
    compilers += [("clang", ["-std=c99"])] if shutil.which("clang") else []
    for compiler, standard in compilers:
        running = [subprocess.Popen([compiler, *standard, *STRICT, "-fsyntax-only", it], stderr=subprocess.PIPE, text=True) for it in sources]
        told = [it.communicate()[1] for it in running]
        assert not any(it.returncode for it in running), f"{compiler} {standard}: {''.join(told)[:2000]}"


@test
def c_is_told_what_the_library_is():
    release, proof, text = said(program("version")).split()
    assert proof in ("proved", "unproved") and release[0].isdigit() and len(text) == 64, (release, proof, text)


@test
def c_answers_nothing_and_extremes():
    said(program("border"))


@test
def c_reads_and_writes_values():
    said(program("values"))


@test
def c_holds_no_more_with_each_turn():
    said(sys.executable, f"{os.path.dirname(ADAPTERS)}/bench/held.py", f"{BIN}/liblapin.so")


@test
def c_says_where_memory_was_refused():
    assert said(program("refused_memory")).endswith(" 0 wrong\n")


def fuzzer():
    """The guided fuzz, compiled, or why there is none. Its object stands in `out` for as long as the text is the same."""
    with open(f"{BIN}/probe.c", "w", encoding="utf-8") as file:
        file.write("int LLVMFuzzerTestOneInput(const unsigned char *a, unsigned long b) { return a && b > 9; }\n")
    probe = ["clang", "-fsanitize=fuzzer", "-o", f"{BIN}/probe", f"{BIN}/probe.c"]
    if not shutil.which("clang") or subprocess.run(probe, stderr=subprocess.DEVNULL, check=False).returncode:
        return None, "no clang with libFuzzer"
    if not shutil.which("rt"):
        return None, "no toolchain by which the library is built for it"
    folder = f"{library.CRATE}/out/fuzzed"
    built = f"{folder}/{library.text_sum()[:16]}.o"
    if not os.path.exists(built):
        shutil.rmtree(folder, ignore_errors=True)
        os.makedirs(folder)
        subprocess.run([sys.executable, f"{ADAPTERS}/unproved_library.py", "--fuzzed", f"{built}.part"], check=True)
        os.rename(f"{built}.part", built)
    subprocess.run(["clang", "-O2", "-fsanitize=fuzzer", "-o", f"{BIN}/guided", f"{CHECKS}/fuzz_guided.c", built], check=True)
    return f"{BIN}/guided", ""


@test
def c_withstands_a_minute_of_fuzz():
    guided, why = fuzzer()
    if guided is None:
        told = said(program("fuzz", f"{ADAPTERS}/c/bench/fuzz.c"), 200000)
        print(f"fuzz: {why}, so the mutating one ran: {told}", end="")
        return
    corpus = f"{BIN}/corpus"
    shutil.unpack_archive(f"{CHECKS}/corpus.tgz", corpus)
    told = said(guided, corpus, f"-dict={CHECKS}/amqp.dict", "-max_total_time=60", "-timeout=20", "-rss_limit_mb=2048", "-print_final_stats=1", "-max_len=8192", timeout=400)
    print("fuzz: " + ", ".join(line.split("::")[1] for line in told.splitlines() if line.startswith(("stat::number_of", "stat::new", "stat::peak"))))


def snippets():
    """The snippets in C of what users read, each a whole program: their places and their texts."""
    top, found = os.path.dirname(ADAPTERS), []
    for name in ("README.md", "adapters/README.md", "docs/ADAPTERS.md"):
        with open(f"{top}/{name}", encoding="utf-8") as file:
            found += [(f"{name} {place}", text) for place, text in enumerate(re.findall(r"^```c\n(.*?)^```", file.read(), re.M | re.S), 1)]
    return found


@test
def c_snippets_compile():
    assert snippets()
    for place, text in snippets():
        source = f"{BIN}/snippet.c"
        with open(source, "w", encoding="utf-8") as file:
            file.write(text)
        done = subprocess.run([os.environ.get("CC", "cc"), "-std=c99", *STRICT, f"-I{ADAPTERS}/c", "-fsyntax-only", source], stderr=subprocess.PIPE, text=True)
        assert done.returncode == 0, f"{place}: {done.stderr}"


@rabbit
def c_snippets_run(url):
    host, port = address(url)
    for place, text in enumerate(text for _, text in snippets()):
        source = f"{BIN}/snippet{place}.c"
        with open(source, "w", encoding="utf-8") as file:
            file.write(text)
        said(program(f"snippet{place}", source, more=[f"-I{ADAPTERS}/c", "-pthread"]), host, port)
