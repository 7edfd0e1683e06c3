#!/usr/bin/env python3
"""Times `replay` on scripts of N and 2N lines over 16 holds, and prints the time, the memory and their growth.

    bench/replay.py [--lines N] PROGRAM..

Each PROGRAM is a built program. The scripts publish on the channels of the holds in turn: items in order; each item and then the
one before it once more; items in pairs of which the second comes first. A hold ends once 1,024 pieces wait for it, so each is
played again with a take of each hold now and then, by which all go on. The runs of the programs alternate, so that what else
the machine does meets them alike. A time is the user time of the best of five runs; the memory is the peak of that run.
"""

import argparse
import itertools
import os
import tempfile

HOLDS = 16
RUNS = 5


def items_of(kind, item):
    """The numbers of the items that are published next behind those up to this one."""
    if kind == "in order":
        return [item + 1]
    return [item + 2, item + 1]


def lines_of(kind, takes, count):
    """So many lines: the attaches first, then publications on the holds' channels in turn."""
    lines = [f"attach stream c{hold} 0 link !" for hold in range(HOLDS)]
    last_item = [0] * HOLDS
    place = 0
    while len(lines) < count:
        hold = place % HOLDS
        items = items_of(kind, last_item[hold])
        for item in items:
            lines.append(f"publish c{hold} {item} {item - 1} item-{item}")
        last_item[hold] += 1 if kind == "with repeats" else len(items)
        if takes and place % (HOLDS * 64) < HOLDS:
            lines.append(f"take {hold} 0")
        place += 1
    return lines[:count]


def run(program, path):
    """The user time in seconds and the peak memory in KB of one run."""
    child = os.fork()
    if child == 0:
        os.dup2(os.open(os.devnull, os.O_WRONLY), 1)
        os.execv(program, [program, "replay", path])
    _, status, usage = os.wait4(child, 0)
    assert status == 0, (program, status)
    return usage.ru_utime, usage.ru_maxrss


def best(programs, kind, takes, count):
    """The best run of each program."""
    with tempfile.NamedTemporaryFile("w") as script:
        script.write("\n".join(lines_of(kind, takes, count)) + "\n")
        script.flush()
        runs = [[run(program, script.name) for program in programs] for _ in range(RUNS)]
    return [min(own) for own in zip(*runs)]


def main():
    parser = argparse.ArgumentParser(description=__doc__.splitlines()[0])
    parser.add_argument("--lines", type=int, default=200_000)
    parser.add_argument("programs", nargs="+", metavar="PROGRAM")
    options = parser.parse_args()
    programs = [os.path.abspath(program) for program in options.programs]
    for kind, takes in itertools.product(["in order", "with repeats", "out of order"], [False, True]):
        once = best(programs, kind, takes, options.lines)
        twice = best(programs, kind, takes, 2 * options.lines)
        script = f"{kind}, with takes" if takes else kind
        for program, (time, memory), (longer, larger) in zip(options.programs, once, twice):
            print(
                f"{program}, {script}: {time:.2f} s and {memory:,} KB at {options.lines:,} lines, "
                f"at twice as many {longer / time:.2f} times the time and {larger / memory:.2f} times the memory"
            )


if __name__ == "__main__":
    main()
