#!/usr/bin/env python3
"""Looks whether the printed trace of a run over an empty volume is legal for its scripts.

    tools/check_trace.py [--whole] [--first-atoms] SCRIPT TRACE [LISTING]

A second reader of docs/traces.md, and no proof: it shares no code with the program, and each rule stands here under the
name that its definition has in crates/r4_trace/specs. Lines are read by tools/trace_entries.py, scripts by
tools/trace_job.py, and what commands mean stands in tools/trace_content.py. It looks at:

  Text       each line is one that an entry has (`entry_text`)
  Order      transactions, atoms, commits and acknowledgements (`MayFollow`, `MayComeNow`)
  Job        each entry answers its script's next command (`Answers`, `AllClosed`)
  Folds      each `done` has the reply of its command after all earlier ones (`HasItsReplies`)
  Legal      with --whole: each command is answered, each transaction ended and committed (`IsWhole`)
  Safe       with --first-atoms: for each k, the commands of the first k sealed atoms alone, in the trace's order,
             have their replies again (`HasFirstReplies`)
             with LISTING, which `list IMAGE /` printed of the settled image afterwards: it is that of the content
             which the committed atoms made, or those and the one that was sealed (`Found`). Behind it the listings of
             all its files may stand, in its order

It does not look at what no line shows: ids of objects, for which fresh ones will do, nor the clocks of `committed` and
`acked`, for which 0 will do, so that of clocks only those in `reopen` are left. No definition says which reply a
refusal has before `broken`: any is let pass. That both atoms of a fusion need its node is no rule of legal traces.

It prints nothing and ends with 0 where all is so, with one line and 1 at the first line that is not, and with 2 at
faulty words, scripts that are no job, and files that cannot be read. A fault of the whole trace is told with the number
of the line behind its last.
"""
from __future__ import annotations

import sys
from dataclasses import dataclass, field
from typing import NoReturn

from trace_content import Content, course, listing_of, listing_with_files
from trace_entries import Acked, Begin, Broken, Committed, Done, Ended, Entry, Fuse, Illegal, Refused, Sealed
from trace_entries import demand, entry_of
from trace_job import Command, FaultyScript, job_of

# ---- Traced: what stands in a trace


@dataclass
class Traced:
    """Transactions with their scripts and atoms, and which atoms are sealed and committed, in their order."""

    script_of: dict[int, int] = field(default_factory=dict)
    of_script: dict[int, list[int]] = field(default_factory=dict)
    atom_in: dict[int, int] = field(default_factory=dict)
    open: set[int] = field(default_factory=set)
    sealed: list[int] = field(default_factory=list)
    committed: list[int] = field(default_factory=list)
    broken_at: int | None = None

    def begun_in(self) -> int:
        return len(self.script_of)

    def last_of(self, script: int) -> int:
        return self.of_script[script][-1] if script in self.of_script else 0

    def is_open(self, txn: int, script: int) -> bool:
        return txn in self.open and self.script_of[txn] == script

    def is_open_in(self, atom: int) -> bool:
        return any(self.atom_in[txn] == atom for txn in self.open)

    def add(self, entry: Entry) -> None:
        match entry:
            case Begin(txn, script):
                self.script_of[txn] = script
                self.of_script.setdefault(script, []).append(txn)
                self.atom_in[txn] = txn
                self.open.add(txn)
            case Fuse(kept, gone, _):
                for txn in [txn for txn, atom in self.atom_in.items() if atom == gone]:
                    self.atom_in[txn] = kept
            case Ended(txn):
                self.open.discard(txn)
            case Sealed(atom):
                self.sealed.append(atom)
            case Committed(atom):
                self.committed.append(atom)
            case Broken(clock, _):
                self.broken_at = clock


# ---- Order: which entry may follow, whatever was asked


def is_unsealed(older: Traced, atom: int) -> None:
    demand(0 < atom <= older.begun_in(), f"atom {atom} has not begun (IsUnsealed)")
    demand(older.atom_in[atom] == atom, f"atom {atom} is named {older.atom_in[atom]} by now (IsUnsealed)")
    demand(atom not in older.sealed, f"atom {atom} is sealed (IsUnsealed)")


def may_seal(older: Traced, atom: int) -> None:
    is_unsealed(older, atom)
    demand(not older.is_open_in(atom), f"a transaction of atom {atom} is open (MayFollow, Sealed)")
    demand(len(older.sealed) == len(older.committed), "an atom is sealed and not committed yet (MayFollow, Sealed)")


def may_commit(older: Traced, atom: int) -> None:
    demand(older.sealed[-1:] == [atom], f"atom {atom} is not the last that was sealed (MayFollow, Committed)")
    demand(len(older.sealed) == len(older.committed) + 1, f"atom {atom} is committed (MayFollow, Committed)")


def may_acknowledge(older: Traced, script: int, txn: int) -> None:
    demand(txn == older.last_of(script), f"script {script} began {older.last_of(script)} last (MayFollow, Acked)")
    for own in older.of_script.get(script, []):
        is_durable = older.atom_in[own] in older.committed
        demand(is_durable, f"transaction {own} is in no committed atom (MayFollow, Acked)")


def may_follow(older: Traced, entry: Entry) -> None:
    match entry:
        case Begin(txn, script):
            demand(txn == older.begun_in() + 1, f"transaction {older.begun_in() + 1} is next (MayFollow, Begin)")
            demand(older.last_of(script) not in older.open, "one of its script is open (MayFollow, Begin)")
        case Fuse(kept, gone, _):
            demand(kept < gone, "the smaller one is kept (MayFollow, Fuse)")
            is_unsealed(older, kept)
            is_unsealed(older, gone)
        case Done(txn, script, _, _):
            demand(older.is_open(txn, script), f"transaction {txn} of script {script} is not open (MayFollow, Done)")
        case Refused(txn, script, _, _):
            demand(txn == 0 or older.is_open(txn, script), f"transaction {txn} is not open (MayFollow, Refused)")
        case Ended(txn):
            demand(txn in older.open, f"transaction {txn} is not open (MayFollow, Ended)")
        case Sealed(atom):
            may_seal(older, atom)
        case Committed(atom):
            may_commit(older, atom)
        case Acked(script, txn):
            may_acknowledge(older, script, txn)


def may_come_now(broken_at: int | None, entry: Entry) -> None:
    """After a Broken entry there are refusals with its clock alone, in no transaction."""
    if broken_at is not None:
        reopens = isinstance(entry, Refused) and entry.txn == 0 and entry.reply == f"reopen {broken_at}"
        demand(reopens, f"only refusals with reopen {broken_at} come behind broken (MayComeNow)")


# ---- Job: how the commands of a job are answered

OUTSIDE, INSIDE, SINGLE, ANSWERED = "outside", "inside", "single", "answered"


@dataclass
class Place:
    """How far a script is, and in which transaction."""

    answered: int = 0
    within: str = OUTSIDE
    txn: int = 0


@dataclass
class Answering:
    """The job, and the places of its scripts, which are counted from 1."""

    job: list[list[Command]]
    places: dict[int, Place] = field(default_factory=dict)

    def place(self, script: int) -> Place:
        return self.places.setdefault(script, Place())

    def commands_of(self, script: int) -> list[Command]:
        return self.job[script - 1] if 0 < script <= len(self.job) else []

    def next_of(self, script: int) -> Command | None:
        commands, answered = self.commands_of(script), self.place(script).answered
        return commands[answered] if answered < len(commands) else None

    def next_word(self, script: int) -> str:
        command = self.next_of(script)
        return command.word if command else "no command"

    def may_be_done(self, entry: Done) -> None:
        place = self.place(entry.script)
        demand(entry.index == place.answered + 1, f"command {place.answered + 1} is next (Answers, Done)")
        demand(is_work(self.next_word(entry.script)), f"{self.next_word(entry.script)} is next (MayBeDone)")
        demand(place.within in (INSIDE, SINGLE) and entry.txn == place.txn, "not in its transaction (DoneIn)")

    def may_be_refused(self, entry: Refused, broken_at: int | None) -> None:
        place, word = self.place(entry.script), self.next_word(entry.script)
        demand(entry.index == place.answered + 1, f"command {place.answered + 1} is next (Answers, Refused)")
        if broken_at is not None:
            demand(word != "no command" and entry.txn == 0, f"{word} is next (MayBeRefused)")
        elif word == "commit":
            demand(place.within == OUTSIDE and entry.txn == 0, "commit is refused in none (MayBeRefused)")
        else:
            demand(is_work(word), f"{word} is next (MayBeRefused)")
            demand(place.within != ANSWERED and entry.txn == place.txn, "not in its transaction (RefusedIn)")

    def may_end(self, script: int, txn: int) -> None:
        place, word = self.place(script), self.next_word(script)
        demand(place.txn == txn and place.within in (ANSWERED, INSIDE), "its command is not answered (MayEnd)")
        demand(place.within == ANSWERED or word in ("end", "no command"), f"{word} is next (MayEnd)")

    def answers(self, older: Traced, entry: Entry) -> None:
        match entry:
            case Begin(_, script):
                demand(self.place(script).within == OUTSIDE, "its script is in a transaction (Answers, Begin)")
                word = self.next_word(script)
                demand(is_work(word) or word == "begin", f"{word} is next (MayBegin)")
            case Done():
                self.may_be_done(entry)
            case Refused():
                self.may_be_refused(entry, older.broken_at)
            case Ended(txn):
                self.may_end(older.script_of[txn], txn)
            case Acked(script, _):
                demand(self.place(script).within == OUTSIDE, "its script is in a transaction (Answers, Acked)")
                demand(self.next_word(script) == "commit", f"{self.next_word(script)} is next (Answers, Acked)")

    def add(self, older: Traced, entry: Entry) -> None:
        match entry:
            case Begin(txn, script):
                is_single = self.next_word(script) != "begin"
                place = self.place(script)
                place.txn = txn
                place.within = SINGLE if is_single else INSIDE
                place.answered += 0 if is_single else 1
            case Done() | Refused() | Acked():
                place = self.place(entry.script)
                place.answered += 1
                is_open = place.within == SINGLE and older.broken_at is None
                place.within = ANSWERED if is_open else place.within
            case Ended(txn):
                script = older.script_of[txn]
                place = self.place(script)
                place.answered += 1 if place.within == INSIDE and self.next_word(script) == "end" else 0
                place.within, place.txn = OUTSIDE, 0

    def all_closed(self) -> None:
        for script, place in self.places.items():
            demand(place.within != ANSWERED, f"transaction {place.txn} of script {script} did not end (AllClosed)")


def is_work(word: str) -> bool:
    return word not in ("begin", "end", "commit", "no command")


# ---- Folds: what the commands of a trace make


@dataclass(frozen=True)
class Made:
    """A Done entry, with its line and its command."""

    line: int
    entry: Done
    command: Command


def has_its_reply(content: Content, made: Made) -> None:
    reply = course(content, made.command)
    if made.entry.reply != reply:
        shown = reply if len(reply) < 80 else reply[:77] + "..."
        raise Illegal(f"{made.command.word} has the reply {shown} there (HasItsReplies)")


# ---- a trace as it is read


@dataclass
class Reader:
    """What was read so far. `line` is the number of the line that is being read."""

    answering: Answering
    line: int = 0
    older: Traced = field(default_factory=Traced)
    content: Content = field(default_factory=Content)
    made: list[Made] = field(default_factory=list)

    def read_line(self, line: str) -> None:
        """IsLegalSoFar, for one entry more."""
        self.line += 1
        entry = entry_of(line)
        may_come_now(self.older.broken_at, entry)
        may_follow(self.older, entry)
        self.answering.answers(self.older, entry)
        if isinstance(entry, Done):
            command = self.answering.next_of(entry.script)
            assert command is not None
            self.made.append(Made(self.line, entry, command))
            has_its_reply(self.content, self.made[-1])
        self.answering.add(self.older, entry)
        self.older.add(entry)

    def read_trace(self, text: str) -> None:
        *lines, rest = text.split("\n")
        for line in lines:
            self.read_line(line)
        self.line += 1
        demand(not rest, "the last line does not end")
        self.answering.all_closed()

    def is_whole(self) -> None:
        for script, commands in enumerate(self.answering.job, 1):
            count = self.answering.place(script).answered
            demand(count == len(commands), f"script {script} has {count} of {len(commands)} answers (IsWhole)")
        demand(not self.older.open, f"transactions {sorted(self.older.open)} did not end (IsWhole)")
        late = {txn for txn, atom in self.older.atom_in.items() if atom not in self.older.committed}
        demand(not late, f"transactions {sorted(late)} are in no committed atom (IsWhole)")
        demand(self.older.broken_at is None, "a call of the device failed (IsWhole)")

    def after_first(self, count: int) -> Content:
        """The content after the first atoms that were sealed, where each command has its reply (HasFirstReplies)."""
        content, chosen = Content(), set(self.older.sealed[:count])
        last = self.line
        for made in self.made:
            if self.older.atom_in[made.entry.txn] in chosen:
                self.line = made.line
                has_its_reply(content, made)
        self.line = last
        return content

    def has_first_replies(self) -> None:
        for count in range(len(self.older.sealed) + 1):
            self.after_first(count)

    def is_left(self, listing: str) -> None:
        """The listing is that of the committed atoms, or of one more that is sealed (Found)."""
        counts = range(len(self.older.committed), len(self.older.sealed) + 1)
        contents = [self.after_first(count) for count in counts]
        left = [text(content) for content in contents for text in (listing_of, listing_with_files)]
        demand(listing in left, f"the listing is not that of the {len(self.older.committed)} committed atoms")


# ---- the command line


def fail(why: str) -> NoReturn:
    print(why, file=sys.stderr)
    sys.exit(2)


def text_of(name: str) -> str:
    try:
        with open(name, encoding="latin-1", newline="") as file:
            return file.read()
    except OSError as error:
        fail(f"check_trace: {name}: {error.strerror}")


def fault_of(job: list[list[Command]], trace: str, listing: str | None, options: set[str]) -> str | None:
    """The first fault of a trace, as a line, or None where there is none."""
    reader = Reader(Answering(job))
    try:
        reader.read_trace(trace)
        if "--whole" in options:
            reader.is_whole()
        if "--first-atoms" in options:
            reader.has_first_replies()
        if listing is not None:
            reader.is_left(listing)
    except Illegal as why:
        return f"line {reader.line}: {why}"
    return None


def main(words: list[str]) -> int:
    options = {word for word in words if word.startswith("--")}
    files = [word for word in words if not word.startswith("--")]
    if not options <= {"--whole", "--first-atoms"} or len(files) not in (2, 3):
        fail("usage: tools/check_trace.py [--whole] [--first-atoms] SCRIPT TRACE [LISTING]")
    script, trace, *listing = map(text_of, files)
    try:
        job = job_of(script)
    except FaultyScript as why:
        fail(f"check_trace: {files[0]}: {why}")
    fault = fault_of(job, trace, listing[0] if listing else None, options)
    if fault:
        print(fault)
    return 1 if fault else 0


if __name__ == "__main__":
    sys.exit(main(sys.argv[1:]))
