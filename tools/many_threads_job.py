#!/usr/bin/env python3
"""Prints the job of a seed for tools/many_threads.sh:  tools/many_threads_job.py SEED

64 scripts, each with a directory of its own, where it makes files, writes, cuts, links, moves, reads and removes them.
One new path in four is in one of eight directories that all scripts share, under one of a few names, which each of them
may find, miss or take from another: so atoms fuse, and commands meet. Two of the names have one key. Some commands
stand in transactions. No file gets more than 16,384 bytes.
"""
import random
import sys

SCRIPTS, ROUNDS = 64, 14
SHARED = 8
LONG = "a-rather-long-name-of-a-file-"
NAMES = ("f0", "f1", "f2", "f3", "f4", "f5", LONG + "al", LONG + "ba", LONG + "c")
MOST_BYTES = 16384


class Writer:
    """One script: its lines, and what its paths are drawn from."""

    def __init__(self, number: int, draw: random.Random):
        self.own = f"/s{number}"
        self.draw = draw
        self.lines: list[str] = []
        self.made: list[str] = []

    def say(self, *words: object) -> None:
        self.lines.append(" ".join(map(str, words)))

    def directory(self) -> str:
        return self.own if self.draw.random() < 0.75 else f"/c{self.draw.randrange(SHARED)}"

    def new_path(self) -> str:
        path = f"{self.directory()}/{self.draw.choice(NAMES)}"
        self.made.append(path)
        return path

    def path(self) -> str:
        """Mostly one that the script itself has named as a new one."""
        if self.made and self.draw.random() < 0.85:
            return self.draw.choice(self.made)
        return f"{self.directory()}/{self.draw.choice(NAMES)}"

    def text(self) -> str:
        return "".join(self.draw.choices("abcdefgh xyz", k=self.draw.choice((0, 1, 20, 300))))

    def on_bytes(self) -> None:
        kind, offset = self.draw.randrange(5), self.draw.choice((0, 0, 5, 700))
        path = self.path()
        if kind < 2:
            self.say("write", path, offset, self.text())
        elif kind == 2:
            length = self.draw.choice((0, 1, 100, 5000, MOST_BYTES - offset))
            self.say("fill", path, offset, length, self.draw.randrange(256))
        elif kind == 3:
            self.say("truncate", path, self.draw.choice((0, 3, 800, 6000)))
        else:
            self.say("read", path, offset, self.draw.choice((10, 1000, 65536)))

    def on_entries(self) -> None:
        word = self.draw.choice(("create",) * 5 + ("rename", "link", "unlink", "mkdir", "rmdir", "names"))
        if word == "names":
            self.say(word, self.directory())
        elif word in ("rename", "link"):
            self.say(word, self.path(), self.new_path())
        elif word in ("create", "mkdir"):
            self.say(word, self.new_path())
        else:
            self.say(word, self.path())

    def on_attributes(self) -> None:
        word, path = self.draw.choice(("stat", "chmod", "chown", "times")), self.path()
        numbers = {"stat": 0, "chmod": 0, "chown": 2, "times": 3}[word]
        mode = [f"{self.draw.randrange(4096):04o}"] if word == "chmod" else []
        self.say(word, path, *mode, *(self.draw.randrange(2**32) for _ in range(numbers)))

    def command(self) -> None:
        self.draw.choice((self.on_bytes, self.on_bytes, self.on_entries, self.on_entries, self.on_attributes))()

    def transaction(self) -> None:
        self.say("begin")
        for _ in range(self.draw.randrange(4)):
            self.command()
        self.say("end")

    def script(self) -> list[str]:
        self.say("script")
        self.say("mkdir", self.own)
        self.say("mkdir", f"/c{self.draw.randrange(SHARED)}")
        for _ in range(ROUNDS):
            self.draw.choice((self.command, self.command, self.transaction))()
            if self.draw.random() < 0.15:
                self.say("commit")
        if self.draw.random() < 0.2:
            self.say("begin")
            self.command()
        return self.lines


def main(words: list[str]) -> int:
    if len(words) != 1 or not words[0].isdigit():
        print("usage: tools/many_threads_job.py SEED", file=sys.stderr)
        return 2
    draw = random.Random(int(words[0]))
    for number in range(1, SCRIPTS + 1):
        print("\n".join(Writer(number, draw).script()))
    return 0


if __name__ == "__main__":
    sys.exit(main(sys.argv[1:]))
