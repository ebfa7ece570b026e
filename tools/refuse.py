#!/usr/bin/env python3
"""Lets each allocation of the tests of r4_refusal_tests fail in turn: tools/refuse.py [FROM TO], from the root of the
repository.

Each test makes a call again that memory was refused to, after it has looked at what stands; so all of them pass whichever
allocation fails. The allocations of each test from FROM to TO are refused one by one, from the first to the 24th where no
numbers are given. That is more than any of them makes, but for the one that opens an image: that makes its device first,
and its last ones, those of the opening, come by `tools/refuse.py 70 80`.
"""
import subprocess
import sys


def main(first, last):
    for number in range(first, last + 1):
        run = subprocess.run(
            ["rt", "try", "--test", "--fail-alloc", str(number)],
            cwd="crates/r4_refusal_tests", capture_output=True, text=True)
        passed = [line for line in run.stdout.splitlines() if line.startswith("test result: ok")]
        if run.returncode != 0 or not passed:
            print(run.stdout + run.stderr)
            print(f"allocation {number} refused: not all tests passed")
            return 1
        print(f"allocation {number} refused: {passed[0]}", flush=True)
    return 0


if __name__ == "__main__":
    sys.exit(main(int(sys.argv[1]), int(sys.argv[2])) if len(sys.argv) == 3 else main(1, 24))
