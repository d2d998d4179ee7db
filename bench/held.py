#!/usr/bin/env python3
"""Tells how many bytes the library holds for each turn of a way of use, and fails where it is more than the bound.

    bench/held.py LIBRARY [--turns N] [WAY ..]        100,000 turns where no number is given, by which the bounds are meant

LIBRARY is the static library or the shared object. A turn is one publish, one delivery, one get, one call, one consumer from its begin to
its end; what is counted is the heap that the second half of the turns left behind (bench/held.c). Lists double, so that another number of
turns gives up to twice or half of a figure where something grows, and 0.00 where nothing does. It needs a C compiler and glibc.
"""

import argparse
import os
import subprocess
import sys
import tempfile

TOP = os.path.dirname(os.path.dirname(os.path.abspath(__file__)))

# The most bytes a turn, and why it holds any at all.
BOUNDS = {
    "publish_asked": (0.1, "nothing"),
    "publish_nacked": (0.1, "nothing"),
    "publish_never_asked": (1, "two bits for its outcome and two for its channel: it may be asked at any later time"),
    "publish_on_two_channels": (12, "the same, and the channel of each second one: the bits of 64 in a row are of one channel"),
    "publish_on_many_channels": (10, "the same, and the channel of nearly each"),
    "publish_unconfirmed": (1, "two bits for its outcome and two for its channel"),
    "publish_unconfirmed_forgotten": (0.1, "nothing"),
    "publish_forgotten_before": (12, "the same, and its place among those that a wait gives, until there is one"),
    "publish_forgotten_after": (0.1, "nothing"),
    "publish_waited": (0.1, "nothing"),
    "publish_behind_the_oldest": (0.1, "nothing"),
    "publish_returned": (0.1, "nothing"),
    "delivery_acked": (0.1, "nothing"),
    "delivery_without_ack": (0.6, "its acker is usable while the opening lives"),
    "delivery_unsettled": (0.6, "the same"),
    "delivery_behind_the_oldest": (0.6, "whether it was used"),
    "get_without_ack": (0.6, "its acker is usable while the opening lives"),
    "get_acked": (0.1, "nothing"),
    "call": (0.1, "nothing"),
    "channel": (0.1, "nothing"),
    "consumer_cancelled": (570, "its tag and queue, which are told for ever, its seat, and a promised job"),
}


def built(room, library):
    """The program over a library."""
    program = f"{room}/held"
    words = [os.environ.get("CC", "cc"), "-O2", "-std=gnu11", "-o", program, f"{TOP}/bench/held.c", os.path.abspath(library)]
    subprocess.run([*words, f"-I{TOP}/adapters/c", f"-Wl,-rpath,{os.path.dirname(os.path.abspath(library))}", "-lm"], check=True)
    return program


def main():
    parser = argparse.ArgumentParser(description=__doc__.split("\n")[0])
    parser.add_argument("library")
    parser.add_argument("--turns", type=int, default=100_000)
    parser.add_argument("ways", nargs="*", metavar="WAY")
    asked = parser.parse_args()
    unknown = [way for way in asked.ways if way not in BOUNDS]
    if unknown:
        parser.error(f"there is no way {unknown[0]}; there are {', '.join(BOUNDS)}")
    above = 0
    with tempfile.TemporaryDirectory(prefix="held-") as room:
        program = built(room, asked.library)
        for way in asked.ways or BOUNDS:
            bound, why = BOUNDS[way]
            ran = subprocess.run([program, way, str(asked.turns)], stdout=subprocess.PIPE, text=True, check=True)
            held = float(ran.stdout)
            above += held > bound
            print(f"{way:30} {held:10.2f} of at most {bound:7}{'   ABOVE' if held > bound else ''}   {why}", flush=True)
    print(f"{len(asked.ways or BOUNDS) - above} ways of use within their bounds, {above} above")
    return 1 if above else 0


if __name__ == "__main__":
    sys.exit(main())
