#!/usr/bin/env python3
"""Builds the program for ./r4, proved, into out/ of the repository, and tells on standard error how far it is.

The kit proves the crates that the program stands on, those side by side that do not wait for each other: as many at a
time as there are processors, and 4 GiB of free memory for each. Behind out/r4_tool stands out/sources, the folders of
which it was built: ./r4 looks there alone for what is newer. The program is as old as the beginning of its build, so
that what is changed meanwhile counts as newer.

How long it takes. To see that nothing is newer, at 3,178 files in 280 folders: 80 looks, on four processors that proved
other crates meanwhile, took from 19 to 36 ms. It is to stay under 50. The first build, with nothing kept: the program
stands on 94 crates since it runs scripts, whose proofs are the most of those of docs/gate.md, so more than half an hour
on four processors; it was not measured.
"""
import os
import shutil
import signal
import subprocess
import sys
import time

ROOT = os.path.dirname(os.path.dirname(os.path.abspath(__file__)))
PROGRAM = "r4_tool"
MEMORY = 4 << 20  # KiB for each crate that is being proved


def tell(text):
    print(f"r4: {text}", file=sys.stderr, flush=True)


def needs():
    """The program and each crate of this repository below it, with all crates below each."""
    lines = {}
    with open(f"{ROOT}/crates.txt") as file:
        for line in file:
            name, colon, rest = line.split("#")[0].partition(":")
            if colon:
                lines[name.split()[0]] = rest.split()
    found = {}

    def below(name):
        if name not in found:
            lows = [low for low in lines[name] if low in lines]
            found[name] = set(lows).union(*(below(low) for low in lows))
        return found[name]

    below(PROGRAM)
    return found


def side_by_side():
    with open("/proc/meminfo") as file:
        free = next(int(line.split()[1]) for line in file if line.startswith("MemAvailable"))
    return max(1, min(len(os.sched_getaffinity(0)), free // MEMORY))


def tell_left(below, done, most):
    """Which crates are being proved: the kit takes those first that have the fewest below them."""
    ready = sorted((name for name in below.keys() - done if below[name] <= done), key=lambda it: (len(below[it]), it))
    left = len(below) - len(done)
    if left:
        tell(f"{left} {'crate is' if left == 1 else 'crates are'} left: proves {', '.join(ready[:most])}")


def kit(command):
    """Begins a command of the kit. It has a session of its own, so that it ends with all that it started."""
    streams = {"stdin": subprocess.DEVNULL, "stdout": subprocess.PIPE, "stderr": subprocess.STDOUT}
    return subprocess.Popen(command, cwd=f"{ROOT}/crates/{PROGRAM}", text=True, start_new_session=True, **streams)


def follow(process, line_read):
    """Reads all that a command says, and answers whether it went well; if not, the last lines are told."""
    said = []
    try:
        for line in process.stdout:
            said.append(line)
            line_read(line)
    except KeyboardInterrupt:
        os.killpg(process.pid, signal.SIGTERM)
        process.wait()
        sys.exit(130)
    if process.wait() != 0:
        print("".join(said[-20:]), file=sys.stderr, end="")
    return process.returncode == 0


def prove(below):
    """Proves all crates. Behind `== NAME` the kit says of a crate, when it is done, what it did."""
    most, done = side_by_side(), set()
    tell_left(below, done, most)

    def line_read(line):
        name = line[3:].strip() if line.startswith("== ") else None
        if name in below:
            done.add(name)
            tell_left(below, done, most)

    return follow(kit(["rt", "all", "check", "--jobs", str(most)]), line_read)


def link():
    """The kit links the program where it runs it, on its stored words."""
    return follow(kit(["rt", "run", "--", "replay", "data/empty.img"]), lambda line: None)


def keep(below, began):
    """Puts the program and the list of its sources into out/."""
    os.makedirs(f"{ROOT}/out", exist_ok=True)
    folders = [f"crates/{name}/{part}" for name in sorted(below) for part in ("src", "specs", "proofs")]
    with open(f"{ROOT}/out/sources", "w") as file:
        file.writelines(f"{folder}\n" for folder in folders if os.path.isdir(f"{ROOT}/{folder}"))
    new = f"{ROOT}/out/{PROGRAM}.new"
    shutil.copyfile(f"{ROOT}/crates/{PROGRAM}/out/{PROGRAM}", new)
    os.chmod(new, 0o755)
    os.utime(new, (began, began))
    os.replace(new, f"{ROOT}/out/{PROGRAM}")


def main():
    began = time.time()
    below = needs()
    tell(f"builds the program: {len(below)} crates are proved, which takes minutes the first time")
    if not (prove(below) and link()):
        tell("the program was not built")
        return 70
    keep(below, began)
    tell("the program is built")
    return 0


if __name__ == "__main__":
    sys.exit(main())
