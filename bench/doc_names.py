#!/usr/bin/env python3
"""Finds each name that the docs give in backticks in the sources, one that is said to be of a crate in that crate, and each page and heading that
they link to, and tells those that aren't there; then the status is 1.

A name is a word with an underscore, a word in humps, `Type::method`, a file's name, or a path. Words of the protocol (`basic.publish`)
and of the shell are none. What the sources never say, but the kit, the Rust crate or pika does, stands in KIT, RUST and PIKA.

    bench/doc_names.py
"""
import os
import re
import sys

TOP = os.path.dirname(os.path.dirname(os.path.abspath(__file__)))
ENDINGS = (".rt", ".antt", ".edit", ".py", ".txt", ".c", ".h", ".sh")

# Names of the kit and of other programs, which the docs may give.
KIT = {"start_lib", "RT_ALLOW_C"}

# Names of the Rust crate that this one is beside, which docs/DIFFERENCES.md gives.
RUST = {"channel_open", "create_channel", "DeliveryTag"}

# Names of pika and aio-pika, which docs/FROM_PIKA.md gives.
PIKA = {"NackError", "start_consuming", "connect_robust", "ConnectionParameters", "ExternalCredentials", "process_data_events", "ChannelClosedByBroker",
        "add_on_connection_blocked_callback", "add_callback_threadsafe", "call_later", "message_count"}


# A name that is said to be of a crate.
OF_CRATE = re.compile(r"`([\w:.]+)` of `(lapin_\w+)`")


def sources():
    """Every word of the sources, every file's name, every path; and of each crate its words and its files' names."""
    words, files, crates = set(), set(), {}
    for folder, folders, names in os.walk(TOP):
        folders[:] = [name for name in folders if name not in (".git", "out", "docs", "wip", "node_modules")]
        inside = os.path.relpath(folder, TOP)
        files.update(inside.split("/"))
        top, _, below = inside.partition("/")
        own = crates.setdefault(below.split("/")[0], set()) if below and top in ("crates", "wrong") else set()
        for name in names:
            own.update((name, os.path.splitext(name)[0]))
            files.update((name, os.path.splitext(name)[0], os.path.normpath(f"{inside}/{name}")))
            if name.endswith(ENDINGS) or "." not in name.strip("."):
                try:
                    text = open(f"{folder}/{name}", encoding="utf-8").read()
                except (UnicodeDecodeError, OSError):
                    continue
                words.update(found := re.findall(r"[A-Za-z_][A-Za-z0-9_']*", text))
                words.update(re.findall(r"[A-Za-z_][A-Za-z0-9_'-]*", text))
                own.update(found)
    files.update(os.listdir(f"{TOP}/docs"))
    return words, files, crates


def pages():
    """The docs."""
    found = [f"{TOP}/README.md", f"{TOP}/CONTRIBUTING.md", f"{TOP}/bench/gate_cost.md"]
    return found + [f"{TOP}/docs/{name}" for name in sorted(os.listdir(f"{TOP}/docs")) if name.endswith(".md")]


def names(span):
    """The names in a span: nothing of what has spaces or signs, but where a path or a call."""
    span = re.sub(r"\(.*\)\??$", "", span.strip())
    if re.search(r"[\s=<>{}\[\]\"$*|,;≡λ→◌]", span) or "…" in span:
        return []
    if "/" in span or re.search(r"\.(rt|antt|py|md|txt|edit|c|h)$", span):
        return [span.rstrip("/")]
    found = []
    for word in re.split(r"::|\.", span):
        if "_" in word.strip("_") or re.search(r"[a-z][A-Z]", word) or "::" in span:
            found.append(word)
    return found


def headings(page):
    """What a link may name in a page: each heading in small letters, without signs, with a dash for each blank."""
    text = re.sub(r"```.*?```", "", open(page, encoding="utf-8").read(), flags=re.S)
    return {re.sub(r"[^\w\- ]", "", line).strip().lower().replace(" ", "-") for line in re.findall(r"^#+ (.*)$", text, re.M)}


def broken(page, line):
    """The links of a line, but for those out of the repository, that lead nowhere."""
    for link in re.findall(r"\]\(([^)\s]+)\)", line):
        path, _, heading = link.partition("#")
        to = os.path.normpath(os.path.join(os.path.dirname(page), path)) if path else page
        if "://" not in link and (not os.path.exists(to) or heading and heading not in headings(to)):
            yield link


def main():
    words, files, crates = sources()
    told = []
    for page in pages():
        text = re.sub(r"```.*?```", lambda block: "\n" * block.group(0).count("\n"), open(page, encoding="utf-8").read(), flags=re.S)
        for number, line in enumerate(text.splitlines(), 1):
            told.extend(f"{os.path.relpath(page, TOP)}:{number}: {link} leads nowhere" for link in broken(page, line))
            for name, crate in OF_CRATE.findall(line):
                if crate in crates and name not in crates[crate] and re.split(r"::|\.", name)[-1] not in crates[crate]:
                    told.append(f"{os.path.relpath(page, TOP)}:{number}: no {name} in {crate}")
            for span in re.findall(r"`([^`]+)`", line):
                for name in names(span):
                    there = name in words or name in files or name in KIT | RUST | PIKA or "CRATE" in name
                    there = there or ("/" in name and (os.path.exists(f"{TOP}/{name}") or name.split("/")[-1] in files))
                    if name and not there:
                        told.append(f"{os.path.relpath(page, TOP)}:{number}: `{span}`: no {name} in the sources")
    print("\n".join(told) or "each name of the docs stands in the sources, and each link leads somewhere")
    sys.exit(1 if told else 0)


main()
