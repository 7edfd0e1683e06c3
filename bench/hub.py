#!/usr/bin/env python3
"""Counts the calls a second on one registry, through the hub and under a lock of `std`, and prints their ratio.

    bench/hub.py [ROUNDS]

It copies the repository to a temporary folder, adds the crate of `bench/hub` there, and builds it. The files of that crate
end in `.txt` here, since the gate refuses sources that no check of its own reads. A round is four calls: it attaches a
hold, publishes an item to it, takes of it and detaches it. One thread makes all rounds, or four threads a quarter each.
Each time is the best of three runs.
"""

import os
import shutil
import subprocess
import sys
import tempfile
import time

TOP = os.path.dirname(os.path.dirname(os.path.abspath(__file__)))


def built(top):
    """The bench's program, built in a copy of the repository."""
    shutil.copytree(TOP, top, ignore=shutil.ignore_patterns("out"))
    crate = os.path.join(top, "crates", "bench_hub")
    sources = os.path.join(top, "bench", "hub")
    for folder, _, files in os.walk(sources):
        into = os.path.join(crate, os.path.relpath(folder, sources))
        os.makedirs(into, exist_ok=True)
        for file in files:
            shutil.copyfile(os.path.join(folder, file), os.path.join(into, file.removesuffix(".txt")))
    with open(os.path.join(top, "crates.txt"), "a") as crates:
        crates.write("bench_hub: gp_plain gp_registry gp_hub gp_turn atomic_table\n")
    subprocess.run(["rt", "run", "--", "hub", "1", "4"], cwd=crate, check=True, stdout=subprocess.DEVNULL)
    return os.path.join(crate, "out", "bench_hub")


def rate(program, way, threads, rounds):
    """Calls a second, of the best of three runs."""
    best = None
    for _ in range(3):
        begun = time.perf_counter()
        subprocess.run([program, way, str(threads), str(rounds)], check=True)
        spent = time.perf_counter() - begun
        best = spent if best is None else min(best, spent)
    return 4 * rounds / best


def main():
    rounds = int(sys.argv[1]) if len(sys.argv) > 1 else 200_000
    with tempfile.TemporaryDirectory() as folder:
        program = built(os.path.join(folder, "pushpin"))
        for threads in (1, 4):
            hub = rate(program, "hub", threads, rounds)
            mutex = rate(program, "mutex", threads, rounds)
            print(f"threads {threads}: hub {hub:,.0f} calls/s, mutex {mutex:,.0f} calls/s, ratio {hub / mutex:.2f}")


main()
