"""The crate for Rust: its tests against a broker of their own and against a RabbitMQ, its documentation's examples, and its table of lapin's names.

It is built without a registry, in a folder of this run's own. Where there is no cargo it isn't tried, which is told.
"""
import os
import re
import subprocess

import lapin
from checks.common import ADAPTERS, BIN, rabbit, said, test

CRATE = f"{ADAPTERS}/rust"


def needs_cargo(function):
    function.needs = ("cargo",)
    return function


def cargo(*words, timeout=600, **env):
    """What cargo says, which ends well."""
    given = {**os.environ, "CARGO_TARGET_DIR": f"{BIN}/rust", "LAPIN_LIBRARY": f"{BIN}/liblapin.so", "LD_LIBRARY_PATH": BIN, "RUST_BACKTRACE": "0", **env}
    given = {name: value for name, value in given.items() if value is not None}
    done = subprocess.run(["cargo", *words], cwd=CRATE, env=given, stdout=subprocess.PIPE, stderr=subprocess.STDOUT, text=True, timeout=timeout)
    assert done.returncode == 0, f"cargo {' '.join(words)}: {done.stdout[-3000:]}"
    return done.stdout


def passed(told):
    """How many tests passed."""
    return sum(int(it) for it in re.findall(r"test result: ok\. (\d+) passed", told))


@test
@needs_cargo
def rust_is_built_without_a_registry_and_a_warning():
    assert "warning" not in cargo("build", "--offline", "--locked", "--examples")


@test
@needs_cargo
def rust_keeps_its_promises_against_a_scripted_broker():
    assert passed(cargo("test", "--offline", "--locked", "--lib", "--tests", AMQP_ADDR=None)) >= 30


@test
@needs_cargo
def rust_documentation_is_run():
    assert passed(cargo("test", "--offline", "--locked", "--doc")) >= 4


@test
def rust_table_of_names_is_true():
    """What the table says is the same, or different, stands in the sources, and what is missing doesn't."""
    with open(f"{CRATE}/README.md", encoding="utf-8") as file:
        rows = re.findall(r"^\| ([^|]+) \| (same|different|missing) \| ([^|]+) \|", file.read(), re.M)
    words = set()
    for name in sorted(os.listdir(f"{CRATE}/src")):
        with open(f"{CRATE}/src/{name}", encoding="utf-8") as file:
            words.update(re.findall(r"\w+", re.sub(r"//.*", "", file.read())))
    assert len(rows) > 20
    for _, kind, names in rows:
        for name in re.findall(r"`(\w+)`", names):
            assert (name in words) == (kind != "missing"), f"{name} is said to be {kind}"


@rabbit
@needs_cargo
def rabbitmq_and_rust(url):
    told = cargo("test", "--offline", "--locked", "--test", "with_rabbitmq", AMQP_ADDR=url)
    assert passed(told) >= 16 and "not tried" not in told
    cargo("build", "--offline", "--locked", "--examples")
    examples = f"{BIN}/rust/debug/examples"
    with lapin.connect(url) as connection:
        connection.channel().queue_delete("hello")
    told = said(f"{examples}/readme", url, 300)
    assert "published 300, heard 300" in told, told
    assert "all as in lapin's test" in said(f"{examples}/confirms", url)
    tutorial = f"{examples}/tutorial"
    assert "ack" in said(tutorial, url, "new_task", "a.task")
    assert "acknowledged: true" in said(tutorial, url, "worker", 1)
    assert said(tutorial, url, "publisher_confirms", 300).count("Published 300") == 3
