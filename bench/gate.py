#!/usr/bin/env python3
"""Runs the merge gate and tells what it cost: bench/gate.py [COMMAND..], from the root of the repository.

The gate's own output is passed on. Behind it stand a table of processor minutes by crate, for proofs, for tests and for edits
that must fail, the five longest steps, and the minutes of the whole run. A step is one process of the kit's checker. It is
looked at once a second, so that what ends within a second is not counted.
"""
import collections
import os
import subprocess
import sys
import time

TICKS = os.sysconf("SC_CLK_TCK")


def processes():
    """Each process: its parent, its words and its processor seconds."""
    found = {}
    for name in os.listdir("/proc"):
        if not name.isdigit():
            continue
        try:
            with open(f"/proc/{name}/stat") as file:
                fields = file.read().rsplit(")", 1)[1].split()
            with open(f"/proc/{name}/cmdline") as file:
                words = file.read().split("\0")
            where = os.readlink(f"/proc/{name}/cwd")
        except OSError:
            continue
        found[int(name)] = int(fields[1]), words, where, (int(fields[11]) + int(fields[12])) / TICKS
    return found


def descends(found, number, top):
    """Whether a process was started by another, at however many removes."""
    while number in found:
        if number == top:
            return True
        number = found[number][0]
    return False


def kind(root, crate, words, where):
    """What a check is for."""
    if where != f"{root}/crates/{crate}":
        return "edits"
    return "tests" if "--test" in words else "proofs"


def main(command):
    root = os.getcwd()
    began = time.time()
    gate = subprocess.Popen(command)
    steps = {}
    while gate.poll() is None:
        found = processes()
        for number, (_, words, where, seconds) in found.items():
            if "--crate-name" not in words or not descends(found, number, gate.pid):
                continue
            crate = words[words.index("--crate-name") + 1]
            steps[number, crate] = kind(root, crate, words, where), seconds
        time.sleep(1)
    minutes = (time.time() - began) / 60
    table = collections.defaultdict(lambda: collections.Counter())
    for (_, crate), (what, seconds) in steps.items():
        table[crate][what] += seconds / 60
        table["all"][what] += seconds / 60
    print("\n| crate | proofs | tests | edits |\n|---|---|---|---|")
    for crate in sorted(table, key=lambda it: (it == "all", it)):
        print(f"| {crate} |", " | ".join(f"{table[crate][it]:.1f}" for it in ("proofs", "tests", "edits")), "|")
    print("\nThe longest steps, in processor minutes:")
    for (_, crate), (what, seconds) in sorted(steps.items(), key=lambda it: -it[1][1])[:5]:
        print(f"- {crate}, {what}: {seconds / 60:.1f}")
    print(f"\nThe whole run: {minutes:.0f} minutes, {sum(table['all'].values()):.0f} processor minutes.")
    return gate.returncode


if __name__ == "__main__":
    sys.exit(main(sys.argv[1:] or [".ci/run"]))
