#!/usr/bin/env python3
"""What an event costs the program: instructions, time and memory, a row a workload. Most rows are of the command `session`, two of
`shared N` on the same input, others of `check` (a frame is an event there), and of `joined`, `generate` and `resend` (a step is).

It stands outside the gate: `rt run` in crates/lapin_run builds the program, and this script makes inputs and runs it.

Instructions are counted by `valgrind --tool=callgrind` and told as a slope: those of a larger input without those of a
smaller one of the same kind, by the events that the larger one has more. They don't depend on what else the machine does.
Time is user and system time, the least of some runs, as a slope between the same inputs. Memory is the most that the
process held on the larger input, in all.

A row of the third table is what a session holds by the end for each turn of its input: what the process took from the heap and didn't give
back, without the input, as `valgrind --tool=massif` counts it, as a slope between two sizes.

    bench/run.py [--program PATH] [--repeat N] [--only WORD] [--growth] [--no-valgrind]
"""
import argparse
import os
import re
import subprocess
import sys
import tempfile
import time

FRAME_MAX = 131072
FIRST_LINE = f"frame_max {FRAME_MAX}"
BODY_MAX = FRAME_MAX - 8


def opened(channels, nowait=0):
    """Each channel is opened, and its publishes are confirmed from then on."""
    for channel in range(1, channels + 1):
        yield f"call {channel} channel.open"
        yield "next 1"
        yield f"recv method {channel} channel.open-ok"
        yield f"call {channel} confirm.select {nowait}"
        yield "next 1"
        if not nowait:
            yield f"recv method {channel} confirm.select-ok"


def publish(channel, length=0):
    """A publish, and a request for each of its frames."""
    yield f"call {channel} basic.publish x x6b6579 0 0 x{'61' * length} []"
    for _ in range(2 + -(-length // BODY_MAX)):
        yield "next 1"


def settled(channel, tag, confirm):
    yield f"recv method {channel} basic.ack {tag} 0"
    yield f"confirm {confirm}"


def published(count, length=0, window=0, channels=1):
    """Publishes in turn over the channels, each settled and polled once `window` others were published after it."""
    yield from opened(channels)
    for number in range(count + window):
        if number < count:
            yield from publish(number % channels + 1, length)
        if number >= window:
            first = number - window
            yield from settled(first % channels + 1, first // channels + 1, first + 1)


def held(count):
    """Publishes that wait for their frames, and leave all at once."""
    yield from opened(1)
    for _ in range(count):
        yield from list(publish(1))[:1]
    for _ in range(2 * count):
        yield "next 1"


def limited(count, full=0):
    """Publishes of one channel in turn, each settled and polled, while as many other channels are full and hold back what waits."""
    yield from opened(full + 1)
    for channel in range(2, full + 2):
        yield f"call {channel} confirm.limit 1"
        yield from publish(channel)
        for _ in range(3):
            yield f"call {channel} basic.publish x x6b6579 0 0 x []"
    yield "call 1 confirm.limit 1"
    for number in range(count):
        yield from publish(1)
        yield from settled(1, number + 1, 4 * full + number + 1)


def piled_up(count):
    """A full channel on which ever more publishes wait, and each time a request that gives none."""
    yield from opened(1)
    yield "call 1 confirm.limit 1"
    yield from publish(1)
    for _ in range(count):
        yield "call 1 basic.publish x x6b6579 0 0 x []"
        yield "next 1"


def polls(count):
    """Polls of a confirm that is outstanding, and of a ticket."""
    yield from opened(1)
    yield from publish(1)
    for number in range(count):
        yield "confirm 1" if number % 2 else "ticket 1"


def closes(count, channels=1):
    """Cycles: a channel is opened, publishes twice, and is closed by this side with a third publish that has not begun."""
    for number in range(count):
        channel = number % channels + 1
        yield f"call {channel} channel.open"
        yield "next 1"
        yield f"recv method {channel} channel.open-ok"
        yield f"call {channel} confirm.select 1"
        yield "next 1"
        yield from publish(channel)
        yield from publish(channel)
        yield from list(publish(channel))[:1]
        yield f"call {channel} channel.close 200 x"
        yield "next 1"
        yield f"recv method {channel} channel.close-ok"


def content(channel, length):
    """The header and the body of a message."""
    yield f"recv header {channel} 60 {length} []"
    yield f"recv body {channel} x{'61' * length}"


def deliveries(count, length):
    """Deliveries for one consumer, each polled and acked, and the frame of each ack."""
    yield from opened(1)
    yield "call 1 basic.consume x71 x74 0 0 0 1 {}"
    yield "next 1"
    for number in range(1, count + 1):
        yield f"recv method 1 basic.deliver x74 {number} 0 x65 x6b"
        yield from content(1, length)
        yield "consumer 1"
        yield f"acker {number} ack 0"
        yield "next 1"


def gets(count, length):
    """Gets of a message each, its ticket polled and its message acked."""
    yield from opened(1)
    for number in range(1, count + 1):
        yield "call 1 basic.get x71 0"
        yield "next 1"
        yield f"recv method 1 basic.get-ok {number} 0 x65 x6b 0"
        yield from content(1, length)
        yield f"ticket {2 * number + 1}"
        yield f"acker {number} ack 0"
        yield "next 1"


def returns(count, length):
    """Publishes that come back, each before its ack, with which it is polled."""
    yield from opened(1)
    for number in range(1, count + 1):
        yield from publish(1, length)
        yield "recv method 1 basic.return 312 x4e4f5f524f555445 x x6b6579"
        yield from content(1, length)
        yield from settled(1, number, number)


def channels(count):
    """Channels that are opened, each with its ticket polled."""
    for channel in range(1, count + 1):
        yield f"call {channel} channel.open"
        yield "next 1"
        yield f"recv method {channel} channel.open-ok"
        yield f"ticket {channel}"


def name(kind, number):
    """A name: those of one kind come in no order of their bytes."""
    return "x" + f"{kind}{number * 7919 % 100003:06d}".encode().hex()


def consumes(first, last):
    for number in range(first, last + 1):
        yield f"call 1 basic.consume x71 {name('t', number)} 0 0 0 1 {{}}"
        yield "next 1"


def started(count, others):
    """Starts of consumers on a channel that has as many others."""
    yield from opened(1)
    yield from consumes(1, others + count)


def canceled(count, others):
    """Starts of consumers among others, each with its cancel."""
    yield from opened(1)
    yield from consumes(1, others)
    for number in range(others + 1, others + count + 1):
        yield from consumes(number, number)
        yield f"call 1 basic.cancel {name('t', number)} 1"
        yield "next 1"


def canceled_in_order(count, others):
    """Starts of consumers among others, each with the cancel of the one that was started first of those that are left."""
    yield from opened(1)
    yield from consumes(1, others)
    for number in range(1, count + 1):
        yield from consumes(others + number, others + number)
        yield f"call 1 basic.cancel {name('t', number)} 1"
        yield "next 1"


def strangers(count, others):
    """Deliveries under tags that are nobody's."""
    yield from opened(1)
    yield from consumes(1, others)
    for number in range(1, count + 1):
        yield f"recv method 1 basic.deliver {name('u', number)} {number} 0 x65 x6b"
        yield "recv header 1 60 0 []"


def declares(first, last):
    for number in range(first, last + 1):
        yield f"call 1 queue.declare {name('q', number)} 0 0 0 0 1 {{}}"
        yield "next 1"


def declared(count, others):
    yield from opened(1)
    yield from declares(1, others + count)


def bound(count, others):
    """Bindings of queues, each of another one, among as many that are declared."""
    yield from opened(1)
    yield from declares(1, others)
    for number in range(1, count + 1):
        yield f"call 1 queue.bind {name('q', number % others + 1)} x65 x6b 1 {{}}"
        yield "next 1"


def unpolled(count, polled_from):
    """Publishes that are settled, their confirms polled, and their tickets from one of them on."""
    yield from opened(1)
    for number in range(1, count + 1):
        yield from publish(1)
        yield from settled(1, number, number)
        if number >= polled_from:
            yield f"ticket {number + 2}"


def unasked(count, channels=1):
    """Publishes in turn over the channels, each settled, whose outcomes nobody asks for."""
    yield from opened(channels)
    for number in range(count):
        yield from publish(number % channels + 1)
        yield f"recv method {number % channels + 1} basic.ack {number // channels + 1} 0"


def acked(count):
    """Deliveries for one consumer, each polled and acked, and the ticket of the ack polled."""
    number = 0
    for line in deliveries(count, 1):
        yield line
        if line.startswith("acker"):
            number += 1
        elif number and line == "next 1":
            yield f"ticket {number + 3}"


def joined(count):
    """Steps of a session that is joined to a free broker: publishes, each read, acked and polled."""
    for call, answer in ("channel.open", "channel.open-ok"), ("confirm.select 0", "confirm.select-ok"):
        yield from [f"client call 1 {call}", "client next 1", "read", f"send method 1 {answer}", "deliver"]
    for number in range(1, count + 1):
        yield "client call 1 basic.publish x x6b6579 0 0 x []"
        yield from ["client next 1", "client next 1", "read", "read"]
        yield f"send method 1 basic.ack {number} 0"
        yield from ["deliver", f"client confirm {number}"]


def generated(count):
    """As many lines as `generate` makes steps for so many publishes. It reads none of them."""
    yield from ["step"] * 10
    for number in range(1, count + 1):
        yield from ["step"] * (4 + 2 * (2 + -(-(number * 37 % 9000) // 4088)))


def transcript(count, window=0, multiple=1):
    """What a broker read and sent: publishes, each settled once `window` others came after it, `multiple` by one settlement."""
    yield "up method 1 channel.open"
    yield "down method 1 channel.open-ok"
    yield "up method 1 confirm.select 1"
    for number in range(1, count + window + 1):
        if number <= count:
            yield "up method 1 basic.publish x x6b6579 0 0"
            yield "up header 1 60 0 []"
        settled_now = number - window
        if settled_now > 0 and settled_now % multiple == 0:
            yield f"down method 1 basic.ack {settled_now} {int(multiple > 1)}"


def resent(count):
    """Messages of a publisher that sends again, each stored before the next one is submitted."""
    for line in ["next", "read", "send method 1 channel.open-ok", "deliver", "next", "read"]:
        yield line
    for number in range(1, count + 1):
        yield "submit x x6b6579 x"
        yield from ["next", "read", "next", "read"]
        yield f"send method 1 basic.ack {number} 0"
        yield "deliver"


# A row: its name, its input of so many turns, the turns of the smaller and of the larger input, and the words of its command, where {}
# stands for the turns.
WORKLOADS = [
    ("publish and confirm, empty", lambda n: published(n), 2_000, 20_000),
    ("publish and confirm, 100 bytes", lambda n: published(n, length=100), 2_000, 10_000),
    ("publish and confirm, 5,000 bytes", lambda n: published(n, length=5_000), 200, 1_000),
    ("publish and ack, empty, never asked for", unasked, 2_000, 20_000),
    ("publish and ack on two channels in turn, never asked for", lambda n: unasked(n, channels=2), 2_000, 20_000),
    ("publish and ack on 100 channels in turn, never asked for", lambda n: unasked(n, channels=100), 2_000, 20_000),
    ("window of 1,000 outstanding", lambda n: published(n, window=1_000), 2_000, 20_000),
    ("publish and confirm on 1,000 channels", lambda n: published(n, channels=1_000), 2_000, 20_000),
    ("publishes held, then sent", held, 2_000, 20_000),
    ("publish and confirm, limit of 1", limited, 2_000, 20_000),
    ("publish and confirm behind 100 full channels", lambda n: limited(n, full=100), 2_000, 20_000),
    ("publishes that pile up on a full channel", piled_up, 2_000, 20_000),
    ("polls", polls, 10_000, 50_000),
    ("closes", closes, 500, 5_000),
    ("closes on 1,000 channels", lambda n: closes(n, channels=1_000), 2_000, 7_000),
    ("deliveries of 100 bytes, polled and acked", lambda n: deliveries(n, 100), 2_000, 10_000),
    ("gets of 100 bytes, polled and acked", lambda n: gets(n, 100), 2_000, 10_000),
    ("publishes of 100 bytes that come back", lambda n: returns(n, 100), 2_000, 10_000),
    ("publish and confirm, empty, by shared 1", lambda n: published(n), 2_000, 10_000, ["shared", "1"]),
    ("publish and confirm, empty, by shared 4", lambda n: published(n), 2_000, 10_000, ["shared", "4"]),
    ("publish and confirm, empty, by joined", joined, 1_000, 5_000, ["joined"]),
    ("publishes of 0 to 9,000 bytes, by generate", generated, 1_000, 9_000, ["generate", "{}"]),
    ("publishes and acks checked", transcript, 2_000, 10_000, ["check"]),
    ("messages sent and stored by resend", resent, 1_000, 5_000, ["resend"]),
]

# The same at other sizes: how an event's cost grows with the events before it, and the memory of what is held.
GROWTH = [
    (f"publish and confirm, empty, {few:,} to {many:,} events", lambda n: published(n), few // 5, many // 5)
    for few, many in [(10_000, 20_000), (100_000, 200_000), (400_000, 800_000)]
] + [
    ("publishes held, then sent, 20,000 and 100,000", held, 20_000, 100_000),
] + [
    (f"{name} checked, {few:,} to {many:,} frames", make, few // 3, many // 3, ["check"])
    for name, make in [
        ("publishes and acks", transcript),
        ("publishes with 1,000 outstanding", lambda n: transcript(n, window=1_000)),
        ("publishes acked by 100", lambda n: transcript(n, multiple=100)),
    ]
    for few, many in [(5_000, 10_000), (50_000, 100_000)]
] + [
    (f"messages sent and stored by resend, {few:,} to {many:,} steps", resent, few // 7, many // 7, ["resend"])
    for few, many in [(5_000, 10_000), (50_000, 100_000)]
] + [
    (f"{name_of} {others:,}", lambda n, make=make, others=others: make(n, others), few, many)
    for name_of, make, sizes, few, many in [
        ("start of a consumer among", started, (10, 500, 5_000), 100, 500),
        ("start and cancel of a consumer among", canceled, (10, 500, 4_000), 100, 500),
        ("start, and cancel of the oldest of", canceled_in_order, (500, 4_000), 100, 4_500),
        ("delivery under nobody's tag beside", strangers, (10, 500, 4_000), 100, 1_000),
        ("declare of a queue among", declared, (10, 500, 4_000), 100, 500),
        ("binding of a queue among", bound, (10, 500, 4_000), 100, 600),
    ]
    for others in sizes
] + [
    ("open a channel, and poll", channels, 1_000, 6_000),
]

# What is held by the end for each turn: its name, its input of so many turns, and the turns of the smaller and of the larger one.
HELD = [
    ("publishes whose tickets nobody polls", lambda n: unpolled(n, n + 1), 60_000, 120_000),
    ("publishes of which the first ticket nobody polls", lambda n: unpolled(n, 2), 40_000, 70_000),
    ("deliveries that were acked", acked, 35_000, 60_000),
    ("channels that are open", channels, 10_000, 60_000),
]


def write_input(path, lines):
    """Writes an input, and answers how many events it has."""
    events = 0
    with open(path, "w") as file:
        file.write(FIRST_LINE + "\n")
        for line in lines:
            file.write(line + "\n")
            events += 1
    return events


def run(command, path):
    with open(path, "rb") as source:
        done = subprocess.run(command, stdin=source, stdout=subprocess.DEVNULL, stderr=subprocess.PIPE)
    if done.returncode != 0:
        sys.exit(f"status {done.returncode} of {' '.join(command)} on {path}\n{done.stderr.decode()}")
    return done.stderr.decode()


def instructions(command, path):
    told = run(["valgrind", "--tool=callgrind", "--callgrind-out-file=/dev/null", *command], path)
    return int(re.search(r"Collected : (\d+)", told)[1])


def seconds(command, path, repeat):
    """The least user and system time of the runs."""
    least = None
    for _ in range(repeat):
        before = os.times()
        run(command, path)
        after = os.times()
        spent = after.children_user - before.children_user + after.children_system - before.children_system
        least = spent if least is None else min(least, spent)
    return least


def peak(command, path):
    """The most memory that the process held, in bytes. `time` starts it: of a process that this script started itself, the
    system would tell the script's own memory."""
    return 1024 * int(run(["/usr/bin/time", "-f", "%M", *command], path).split()[-1])


def last_heap(command, path):
    """What the process has taken from the heap by the end of its input and not given back, in bytes: the most of the last tenth of its
    run. The input itself, which is kept whole in a buffer that doubles, isn't counted."""
    with tempfile.NamedTemporaryFile("r", encoding="utf-8") as told:
        run(["valgrind", "--tool=massif", "--max-snapshots=200", f"--massif-out-file={told.name}", *command], path)
        shots = [tuple(map(int, shot)) for shot in re.findall(r"time=(\d+)\nmem_heap_B=(\d+)", told.read())]
    buffer = 1 << (os.path.getsize(path) - 1).bit_length()
    return max(heap for time_of, heap in shots if 10 * time_of >= 9 * shots[-1][0]) - buffer


def held_row(program, folder, workload):
    name_of, make, few, many = workload
    small, large = os.path.join(folder, "small"), os.path.join(folder, "large")
    write_input(small, make(few))
    write_input(large, make(many))
    command = [program, "session"]
    each = (last_heap(command, large) - last_heap(command, small)) / (many - few)
    return f"| {name_of} | {few:,} to {many:,} | {each:,.1f} |"


def row(program, folder, repeat, counted, workload):
    name, make, few, many, *words = workload
    fewer, command = ([program, *(word.format(turns) for word in (words[0] if words else ["session"]))] for turns in (few, many))
    small, large = os.path.join(folder, "small"), os.path.join(folder, "large")
    more = -write_input(small, make(few)) + write_input(large, make(many))
    count = "-"
    if counted:
        count = f"{(instructions(command, large) - instructions(fewer, small)) / more:,.0f}"
    spent = max(0.0, seconds(command, large, repeat) - seconds(fewer, small, repeat)) / more * 1e9
    mebi = 1 << 20
    return f"| {name} | {count} | {spent:,.0f} | {os.path.getsize(large) / mebi:.2f} | {peak(command, large) / mebi:.2f} |"


def main():
    here = os.path.dirname(os.path.abspath(__file__))
    words = argparse.ArgumentParser(description=__doc__, formatter_class=argparse.RawDescriptionHelpFormatter)
    words.add_argument("--program", default=os.path.join(here, "..", "crates", "lapin_run", "out", "lapin_run"))
    words.add_argument("--repeat", type=int, default=5)
    words.add_argument("--only", default="", help="the rows whose name has this word")
    words.add_argument("--growth", action="store_true", help="the rows of growth too; they take minutes")
    words.add_argument("--no-valgrind", action="store_true", help="without instructions")
    given = words.parse_args()
    if not os.path.exists(given.program):
        sys.exit(f"{given.program} isn't there: run `rt run` in crates/lapin_run first")
    print(f"{os.cpu_count()} processors, load {os.getloadavg()[0]:.1f}\n")
    print("| workload | instructions an event | ns an event | input MiB | peak MiB |")
    print("|---|---|---|---|---|")
    with tempfile.TemporaryDirectory() as folder:
        for workload in WORKLOADS + (GROWTH if given.growth else []):
            if given.only in workload[0]:
                print(row(given.program, folder, given.repeat, not given.no_valgrind, workload), flush=True)
        if not given.growth:
            return
        print("\n| held by the end | turns | bytes a turn |")
        print("|---|---|---|")
        for workload in HELD:
            if given.only in workload[0]:
                print(held_row(given.program, folder, workload), flush=True)


if __name__ == "__main__":
    main()
