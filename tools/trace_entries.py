"""The entries of a trace and their lines (crates/r4_trace/specs/Text.antt; docs/scripts.md, "The trace").

For tools/check_trace.py. All text is latin-1, one character for each byte.
"""
from __future__ import annotations

import re
from dataclasses import dataclass


@dataclass(frozen=True)
class Begin:
    txn: int
    script: int


@dataclass(frozen=True)
class Fuse:
    kept: int
    gone: int
    node: int


@dataclass(frozen=True)
class Done:
    txn: int
    script: int
    index: int
    reply: str


@dataclass(frozen=True)
class Refused:
    txn: int
    script: int
    index: int
    reply: str


@dataclass(frozen=True)
class Ended:
    txn: int


@dataclass(frozen=True)
class Sealed:
    atom: int


@dataclass(frozen=True)
class Committed:
    atom: int


@dataclass(frozen=True)
class Acked:
    script: int
    txn: int


@dataclass(frozen=True)
class Broken:
    clock: int
    faults: int


Entry = Begin | Fuse | Done | Refused | Ended | Sealed | Committed | Acked | Broken

LINES = (
    (Begin, "begin tN sN"),
    (Fuse, "fuse aN aN nN"),
    (Done, "done tN sN cN ..."),
    (Refused, "refused tN sN cN ..."),
    (Ended, "ended tN"),
    (Sealed, "sealed aN"),
    (Committed, "committed aN"),
    (Acked, "acked sN tN"),
    (Broken, "broken N N"),
)
NUMBER = "(?:0|[1-9][0-9]{0,19})"
REPLY = "|".join((
    "ok|name|notdir|absent|exists|oids|links|isdir|toobig|loop|notempty|memory",
    f"data {NUMBER}(?: (?:[0-9a-f]{{2}})+)?",
    f"attr (?:0|[1-7][0-7]*)(?: {NUMBER}){{7}}",
    f"names {NUMBER}(?: [^\n]+)?",
    "clash [^\n]+",
    f"(?:space|readfault) {NUMBER} {NUMBER}",
    f"(?:tall|damaged|reopen) {NUMBER}",
))


def form_of(line: str) -> re.Pattern[str]:
    """What matches a line, with a group for each of its numbers and for its reply."""
    return re.compile(line.replace("N", f"({NUMBER})").replace("...", f"({REPLY})"))


FORMS = [(kind, form_of(line)) for kind, line in LINES]


class Illegal(Exception):
    """The trace is not legal at the line that is being read."""


def demand(holds: bool, why: str) -> None:
    if not holds:
        raise Illegal(why)


def is_told(reply: str) -> bool:
    """What a reply counts is there as often."""
    word, *rest = reply.split(" ")
    if word == "data":
        return int(rest[0]) * 2 == len("".join(rest[1:]))
    if word == "names":
        return int(rest[0]) <= len(rest) - 1 and (int(rest[0]) > 0 or len(rest) == 1)
    return True


def entry_of(line: str) -> Entry:
    """The entry that a line tells."""
    for kind, form in FORMS:
        found = form.fullmatch(line)
        if found:
            numbers = [int(part) for part in found.groups()[:3]]
            demand(all(number < 2**64 for number in numbers), "a number of more than 64 bits")
            replies = found.groups()[3:]
            demand(all(map(is_told, replies)), "a reply that counts wrongly")
            return kind(*numbers, *replies)
    raise Illegal(f"no line of a trace: {line!r}")
