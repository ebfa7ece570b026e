"""What the text of scripts says (docs/scripts.md, "The text" to "Commands"), for tools/check_trace.py.

All text is latin-1, one character for each byte.
"""
from __future__ import annotations

import re
from dataclasses import dataclass

MOST_TEXT, MOST_FILL, MOST_READ, MOST_SCRIPTS = 4096, 1048576, 65536, 64

Path = tuple[str, ...]


@dataclass(frozen=True)
class Command:
    """One command of a script: its word, its paths, its numbers, and the bytes that a `write` sets."""

    word: str
    paths: tuple[Path, ...] = ()
    numbers: tuple[int, ...] = ()
    text: str = ""


class FaultyScript(Exception):
    """The text of the scripts is no job."""


NUMBER = r"([0-9]{1,20})"
PATH = r"(/[!-~\x80-\xff]*)"
FORMS = {
    word: re.compile(form)
    for words, form in (
        ("begin end commit", ""),
        ("create mkdir stat names unlink rmdir", f" {PATH}"),
        ("link rename", f" {PATH} {PATH}"),
        ("write", f" {PATH} {NUMBER} ([^\n]{{0,{MOST_TEXT}}})"),
        ("fill", f" {PATH} {NUMBER} {NUMBER} {NUMBER}"),
        ("truncate", f" {PATH} {NUMBER}"),
        ("read", f" {PATH} {NUMBER} {NUMBER}"),
        ("chmod", f" {PATH} ([0-7]{{1,4}})"),
        ("chown", f" {PATH} {NUMBER} {NUMBER}"),
        ("times", f" {PATH} {NUMBER} {NUMBER} {NUMBER}"),
    )
    for word in words.split()
}
ENDS = {
    "fill": (2**64, MOST_FILL + 1, 256),
    "read": (2**64, MOST_READ + 1),
    "chown": (2**32, 2**32),
    "times": (2**32, 2**32, 2**32),
}


def names_in(path: str) -> Path:
    """The names of a path: what stands between the slashes behind the first, and none in `/`."""
    return () if path == "/" else tuple(path[1:].split("/"))


def command_of(line: str) -> Command:
    """The command that a line spells."""
    word = line.split(" ", 1)[0]
    found = FORMS[word].fullmatch(line[len(word):]) if word in FORMS else None
    if not found:
        raise FaultyScript(f"no command: {line!r}")
    paths = tuple(names_in(part) for part in found.groups() if part.startswith("/"))
    rest = found.groups()[len(paths):]
    if word == "write":
        rest, text = (found[2],), found[3]
        paths = paths[:1]
    else:
        text = ""
    numbers = tuple(int(part, 8 if word == "chmod" else 10) for part in rest)
    ends = ENDS.get(word, (2**64,) * len(numbers))
    if any(number >= end for number, end in zip(numbers, ends)):
        raise FaultyScript(f"a number is too large: {line!r}")
    return Command(word, paths, numbers, text)


def may_stand(word: str, is_inside: bool) -> bool:
    """`begin` and `commit` stand outside a transaction of the script, and `end` inside of one."""
    return is_inside if word == "end" else not (is_inside and word in ("begin", "commit"))


def job_of(text: str) -> list[list[Command]]:
    """The commands of each script."""
    job: list[list[Command]] = []
    is_inside = False
    for line in text.split("\n"):
        if not line or line.startswith("#"):
            continue
        if line == "script":
            job.append([])
            is_inside = False
            continue
        command = command_of(line)
        if not job or not may_stand(command.word, is_inside):
            raise FaultyScript(f"{command.word} does not stand here")
        is_inside = command.word == "begin" or (is_inside and command.word != "end")
        job[-1].append(command)
    if len(job) > MOST_SCRIPTS:
        raise FaultyScript("too many scripts")
    return job
