#!/usr/bin/env python3
"""Damaged images: each command ends with a status that it names, and `check` agrees with the others.

    tools/hostile_images.py TOOL [SEED [COUNT]]

TOOL is the program, as out/r4_tool. It makes a volume of 64 blocks with a few files, and COUNT images of it (1000 where none
is given), of each of which one to three bytes are changed, in the blocks that the volume uses; SEED says which. Over each,
`check`, `list` and `replay` are run (docs/program.md, docs/check.md):

- each ends with one of its statuses, and at 7 with one line that names a block;
- where `check` finds no fault, `list` lists, and where the image is not opened, `list` says the same;
- where `list` names a node that is refused, `check` has a fault at its block;
- `replay` refuses just the images whose log `check` refuses.
"""
import random
import re
import subprocess
import sys
import tempfile
import os

BLOCK = 4096
SCRIPT = """script
mkdir /d
create /d/a
write /d/a 0 hello
create /b
fill /b 0 9000 120
link /b /d/c
mkdir /d/e
"""
CHECK = re.compile(rb"(fault block \d+: [a-z ]+\n)*objects \d+ faults \d+\n\Z")
IMAGE = re.compile(rb"image: block (\d+): ([a-z ]+)\n\Z")
LOG_WORDS = {b"range", b"head magic", b"total", b"long", b"record magic", b"id", b"serial", b"pairs", b"circle", b"overlap"}


def call(tool, words, text=b""):
    done = subprocess.run([*tool, *words], input=text, stdout=subprocess.PIPE, stderr=subprocess.DEVNULL, timeout=120)
    return done.returncode, done.stdout


def make(tool, image):
    with open(image, "wb") as file:
        file.truncate(64 * BLOCK)
    for words, text in ((["mkfs", image], b""), (["run", image], SCRIPT.encode()), (["replay", image], b"")):
        status, said = call(tool, words, text)
        if status != 0:
            sys.exit(f"{words[0]} answers {status}: {said!r}")
    with open(image, "rb") as file:
        return file.read()


def used(good):
    """The blocks that are not all zero: those that a change may reach with an effect."""
    return [at for at in range(len(good) // BLOCK) if any(good[at * BLOCK : (at + 1) * BLOCK])]


def place(chance, good, blocks):
    """A byte of such a block, mostly one that is not zero."""
    first = chance.choice(blocks) * BLOCK
    held = [at for at in range(first, first + BLOCK) if good[at]]
    return chance.choice(held) if chance.randrange(4) else first + chance.randrange(BLOCK)


def judge(check, listed, replayed):
    """What is wrong with the answers, or nothing."""
    (status, said), (list_status, list_said), (replay_status, _) = check, listed, replayed
    if status not in (0, 1, 7, 8) or list_status not in (0, 7, 8) or replay_status not in (0, 7, 8):
        return "a status that no such image has"
    if status in (0, 1) and not CHECK.match(said):
        return "lines that a check does not print"
    if status in (0, 1) and said.count(b"\n") - 1 != int(said.split()[-1]):
        return "another number of faults"
    if status == 7 and not IMAGE.match(said):
        return "no block is named"
    if (status == 0) != (said.endswith(b" faults 0\n")):
        return "a status that its lines do not have"
    if status == 0 and list_status != 0:
        return "no fault, and not listed"
    if status in (7, 8) and (list_status, list_said) != (status, said):
        return "not opened, and listed otherwise"
    refused = IMAGE.search(list_said) if list_status == 7 else None
    if status in (0, 1) and refused and b"fault block " + refused.group(1) + b": " not in said:
        return "list names a node that check passes over"
    log = status == 7 and IMAGE.match(said).group(2) in LOG_WORDS
    if (replay_status == 7) != bool(log):
        return "replay and check do not agree on the log"
    return None


def main():
    if len(sys.argv) < 2:
        sys.exit(__doc__)
    tool = sys.argv[1].split()
    seed = int(sys.argv[2]) if len(sys.argv) > 2 else 1
    count = int(sys.argv[3]) if len(sys.argv) > 3 else 1000
    chance = random.Random(seed)
    found, wrong = {}, 0
    with tempfile.TemporaryDirectory() as folder:
        image = os.path.join(folder, "image")
        good = make(tool, image)
        blocks = used(good)
        for number in range(count):
            changed = bytearray(good)
            for _ in range(chance.randint(1, 3)):
                changed[place(chance, good, blocks)] = chance.randrange(256)
            with open(image, "wb") as file:
                file.write(changed)
            check, listed = call(tool, ["check", image]), call(tool, ["list", image])
            replayed = call(tool, ["replay", image])
            found[check[0]] = found.get(check[0], 0) + 1
            fault = judge(check, listed, replayed)
            if fault:
                wrong += 1
                print(f"image {number}: {fault}: {check} {listed} {replayed}")
    told = ", ".join(f"{n} of status {status}" for status, n in sorted(found.items()))
    print(f"seed {seed}: {count} images, {told}; {wrong} wrong")
    return 1 if wrong else 0


if __name__ == "__main__":
    sys.exit(main())
