#!/usr/bin/env python3
"""Shows that tools/check_trace.py is no rubber stamp:  tools/try_check_trace.py SCRIPT TRACE

TRACE is legal and whole for SCRIPT, and that of a job with replies of many kinds, commits and fusions, as
`tools/many_threads_job.py 1` prints one. It is changed in each of the ways below, and each changed trace has to be
refused by the rule that is named behind the way. So are small traces of their own: those that crates/r4_trace_rows
proves to be legal, and not to be, as far as printed lines show why.

Three ways make another legal trace, and that has to be let pass: with another node in a fusion, since no rule speaks of
it; with a command that only reads refused, since a refusal may have any reply and changes nothing; and one that ends
in a failed call, with all commands that were left refused. The last is changed in its turn.

It prints a line for each way, and ends with 0 where all went so. A way that the trace has no place for is told and
counts as missed.
"""
from __future__ import annotations

import re
import sys
from typing import Callable, Iterator

from check_trace import Answering, Reader, fault_of, text_of
from trace_job import job_of

Lines = list[str]
Way = Callable[[Lines], Lines]


class NoPlace(Exception):
    """The trace has no place for this change."""


# ---- places of a trace, and what is done there


def places(lines: Lines, form: str) -> Iterator[int]:
    return (i for i, line in enumerate(lines) if re.fullmatch(form, line))


def place(lines: Lines, form: str) -> int:
    for i in places(lines, form):
        return i
    raise NoPlace(form)


def left_out(form: str) -> Way:
    def way(lines: Lines) -> Lines:
        i = place(lines, form)
        return lines[:i] + lines[i + 1:]
    return way


def twice(form: str) -> Way:
    def way(lines: Lines) -> Lines:
        i = place(lines, form)
        return lines[:i + 1] + lines[i:]
    return way


def replaced(form: str, pattern: str, by: str | Callable[[re.Match[str]], str]) -> Way:
    def way(lines: Lines) -> Lines:
        i = place(lines, form)
        return lines[:i] + [re.sub(pattern, by, lines[i], count=1)] + lines[i + 1:]
    return way


def exchanged(first: str, second: str) -> Way:
    """Two neighbours change places."""
    def way(lines: Lines) -> Lines:
        for i in places(lines, first):
            if i + 1 < len(lines) and re.fullmatch(second, lines[i + 1]):
                return lines[:i] + [lines[i + 1], lines[i]] + lines[i + 2:]
        raise NoPlace(f"{first}, {second}")
    return way


def inserted_behind(form: str, line: Callable[[str], str]) -> Way:
    def way(lines: Lines) -> Lines:
        i = place(lines, form)
        return lines[:i + 1] + [line(lines[i])] + lines[i + 1:]
    return way


def moved(lines: Lines, old: int, new: int) -> Lines:
    """A line comes to an earlier place."""
    return lines[:new] + [lines[old]] + lines[new:old] + lines[old + 1:]


def one_more(found: re.Match[str]) -> str:
    return f"{found[1]}{int(found[2]) + 1}"


def other_digit(found: re.Match[str]) -> str:
    return found[1] + ("0" if found[2] != "0" else "1")


def atom_of(lines: Lines, txn: str) -> str:
    """The atom of a transaction in the whole trace."""
    atom = txn
    for line in lines:
        found = re.fullmatch(r"fuse a(\d+) a(\d+) n\d+", line)
        if found and found[2] == atom:
            atom = found[1]
    return atom


# ---- ways that need more than one line


def acknowledged_early(lines: Lines) -> Lines:
    """An acknowledgement comes right before the commit of the atom."""
    for i in places(lines, r"acked s\d+ t[1-9]\d*"):
        txn = lines[i].rsplit("t", 1)[1]
        commit = lines.index(f"committed a{atom_of(lines, txn)}")
        if commit < i:
            return moved(lines, i, commit)
    raise NoPlace("acked")


def sealed_while_open(lines: Lines) -> Lines:
    """An atom is sealed right before one of its transactions ends."""
    for i in places(lines, r"sealed a\d+"):
        ends = [j for j in places(lines[:i], r"ended t\d+") if "sealed a" + atom_of(lines, lines[j][7:]) == lines[i]]
        if ends:
            return moved(lines, i, ends[-1])
    raise NoPlace("sealed")


def two_sealed(lines: Lines) -> Lines:
    """The next atom is sealed before the commit of one."""
    commit = place(lines, r"committed a\d+")
    seal = commit + place(lines[commit:], r"sealed a\d+")
    return moved(lines, seal, commit)


def fused_when_sealed(lines: Lines) -> Lines:
    """A sealed atom takes another one in."""
    for i in places(lines, r"sealed a\d+"):
        atom = int(lines[i][8:])
        later = [line for line in lines[i:] if line.startswith("sealed a") and int(line[8:]) > atom]
        begun = sum(line.startswith("begin ") for line in lines[:i])
        if later and int(later[0][8:]) <= begun:
            return lines[:i + 1] + [f"fuse a{atom} a{later[0][8:]} n23"] + lines[i + 1:]
    raise NoPlace("sealed")


def first_made_is_refused(lines: Lines) -> Lines:
    """What others stand on is not made."""
    return replaced(r"done t\d+ s\d+ c\d+ ok", r"^done (.*) ok$", r"refused \1 memory")(lines)


def begun_inside(lines: Lines) -> Lines:
    """A script begins a second transaction, by the next number, before its first one ends."""
    i = place(lines, r"ended t\d+")
    txn = lines[i][7:]
    script = next(line.split("s")[1] for line in lines if line.startswith(f"begin t{txn} "))
    begun = sum(line.startswith("begin ") for line in lines[:i])
    return lines[:i] + [f"begin t{begun + 1} s{script}"] + lines[i:]


def done_for_another(lines: Lines) -> Lines:
    """A command is done in the transaction of another script that is open."""
    opened: dict[str, str] = {}
    for i, line in enumerate(lines):
        words = line.split(" ")
        if words[0] == "begin":
            opened[words[1]] = words[2]
        elif words[0] == "ended":
            opened.pop(words[1], None)
        elif words[0] == "done":
            others = [txn for txn in opened if txn != words[1]]
            if others:
                return lines[:i] + [" ".join(["done", others[0], *words[2:]])] + lines[i + 1:]
    raise NoPlace("done")


DONE = r"done t\d+ s\d+ c\d+ "
WHOLE = ["--whole", "--first-atoms"]
WAYS: list[tuple[str, Way, str]] = [
    ("a begin is left out", left_out(r"begin t\d+ s\d+"), "MayFollow, Begin|MayFollow, Done|IsUnsealed"),
    ("a done is left out", left_out(DONE + "ok"), "Answers|MayEnd|MayBegin"),
    ("an ended is left out", left_out(r"ended t\d+"), "MayFollow|Answers"),
    ("a fuse is left out", left_out(r"fuse a\d+ a\d+ n\d+"), "MayFollow|IsUnsealed|IsWhole"),
    ("a sealed is left out", left_out(r"sealed a\d+"), "MayFollow, Committed"),
    ("a committed is left out", left_out(r"committed a\d+"), "MayFollow"),
    ("an acked is left out", left_out(r"acked s\d+ t\d+"), "MayBegin|Answers|IsWhole"),
    ("the last line is left out", lambda lines: lines[:-1], "IsWhole"),
    ("a begin and its fuse are exchanged", exchanged(r"begin t\d+ s\d+", r"fuse .*"), "IsUnsealed"),
    ("a done and its ended are exchanged", exchanged(DONE + ".*", r"ended t\d+"), "MayEnd|MayFollow"),
    ("a sealed and its committed are exchanged", exchanged(r"sealed a\d+", r"committed a\d+"), "MayFollow, Committed"),
    ("ok instead of absent", replaced(DONE + "absent", "absent", "ok"), "HasItsReplies"),
    ("exists instead of ok", replaced(DONE + "ok", "ok$", "exists"), "HasItsReplies"),
    ("another byte is read", replaced(DONE + r"data [1-9].*", "(.*)(.)$", other_digit), "HasItsReplies"),
    ("a byte less is counted", replaced(DONE + r"data [1-9].*", r"data \d+", "data 0"), "counts wrongly"),
    ("another size", replaced(DONE + r"attr .*", r"(attr \d+ \d+ )(\d+)", one_more), "HasItsReplies"),
    ("another mode", replaced(DONE + r"attr .*", r"attr \d+", "attr 1"), "HasItsReplies"),
    ("two names are exchanged", replaced(DONE + r"names \d+ \S+ \S+.*", r"(names \d+) (\S+) (\S+)", r"\1 \3 \2"),
     "HasItsReplies"),
    ("another name has the key", replaced(DONE + "clash .*", "$", "x"), "HasItsReplies"),
    ("a command is done twice", twice(DONE + ".*"), "Answers, Done"),
    ("another command is done", replaced(DONE + ".*", r"( c)(\d+)", one_more), "Answers, Done"),
    ("it is done in another transaction", replaced(DONE + ".*", r"( t)(\d+)", one_more), "MayFollow, Done"),
    ("it is done by another script", replaced(DONE + ".*", r"( s)(\d+)", one_more), "MayFollow, Done"),
    ("it is done in another script's transaction", done_for_another, "MayFollow, Done"),
    ("what others stand on is refused", first_made_is_refused, "HasItsReplies"),
    ("a number is passed over", replaced(r"begin t\d+ s\d+", r"( t)(\d+)", one_more), "MayFollow, Begin"),
    ("a script begins twice", begun_inside, "MayFollow, Begin"),
    ("a transaction ends twice", twice(r"ended t\d+"), "MayFollow, Ended"),
    ("the larger atom is kept", replaced(r"fuse .*", r"(a\d+) (a\d+)", r"\2 \1"), "MayFollow, Fuse"),
    ("a sealed atom takes one in", fused_when_sealed, "IsUnsealed"),
    ("two atoms become one twice", twice(r"fuse .*"), "IsUnsealed"),
    ("another atom is sealed", replaced(r"sealed a\d+", r"( a)(\d+)", one_more), "IsUnsealed|MayFollow"),
    ("an atom is sealed twice", twice(r"sealed a\d+"), "IsUnsealed"),
    ("an atom is sealed while it is open", sealed_while_open, "MayFollow, Sealed"),
    ("two atoms are sealed", two_sealed, "MayFollow, Sealed"),
    ("another atom is committed", replaced(r"committed a\d+", r"( a)(\d+)", one_more), "MayFollow, Committed"),
    ("an atom is committed twice", twice(r"committed a\d+"), "MayFollow, Committed"),
    ("acknowledged before its commit", acknowledged_early, "MayFollow, Acked"),
    ("another transaction is acknowledged", replaced(r"acked s\d+ t\d+", r"( t)(\d+)", one_more), "MayFollow, Acked"),
    ("acknowledged twice", twice(r"acked s\d+ t\d+"), "Answers, Acked"),
    ("a transaction is acknowledged to another script", replaced(r"acked s\d+ t[1-9]\d*", r"( s)(\d+)", one_more),
     "MayFollow, Acked"),
    ("no line of a trace", inserted_behind("sealed .*", lambda line: "flushed" + line[6:]), "no line of a trace"),
    ("a number begins with 0", replaced(r"sealed .*", " a", " a0"), "no line of a trace"),
    ("a reply that is none", replaced(DONE + "ok", "ok$", "nospace"), "no line of a trace"),
    ("a blank behind a line", replaced(r"sealed .*", "$", " "), "no line of a trace"),
]
BROKEN_WAYS: list[tuple[str, Way, str]] = [
    ("a clock less", replaced("refused .* reopen 7", "7$", "6"), "MayComeNow"),
    ("another reply behind broken", replaced("refused .* reopen 7", "reopen 7", "memory"), "MayComeNow"),
    ("a command is passed over behind broken", left_out("refused .* reopen 7"), "Answers, Refused"),
    ("a refusal in a transaction behind broken", replaced("refused t0 .* reopen 7", "t0", "t1"), "MayComeNow"),
    ("broken twice", twice("broken .*"), "MayComeNow"),
    ("committed behind broken", inserted_behind("broken .*", lambda _: "committed a1"), "MayComeNow"),
]


def broken_trace(script: str, lines: Lines) -> Lines:
    """Half of a trace; then a call fails, and each command that is left is refused. No `end` is left over in it."""
    reader = Reader(Answering(job_of(script)))
    half = 0
    for line in lines:
        reader.read_line(line)
        half += 1
        if half >= len(lines) // 2 and all(it.within != "answered" for it in reader.answering.places.values()):
            break
    left = [
        f"refused t0 s{script} c{index} reopen 7"
        for script, commands in enumerate(reader.answering.job, 1)
        for index in range(reader.answering.place(script).answered + 1, len(commands) + 1)
    ]
    return [*lines[:half], "broken 7 1", *left]


# ---- small traces (crates/r4_trace_rows/specs/Examples.antt). Each is one line here, and so is its job

MADE = "begin t1 s1;done t1 s1 c1 ok;ended t1;sealed a1"
STAT = "begin t1 s1;done t1 s1 c1 attr 40755 2 0 0 0 0 0 0;ended t1"
TWO = "begin t1 s1;ended t1;begin t2 s2;ended t2"
WAITING_JOB = "script;begin;create /a;write /a 0 x;write /a 1 y;end;script;begin;stat /a;end;commit"
WAITING = (
    "begin t1 s1;begin t2 s2;done t1 s1 c2 ok;fuse a1 a2 n23;done t2 s2 c2 attr 100644 1 0 0 0 0 0 0;"
    "done t1 s1 c3 ok;ended t2;done t1 s1 c4 ok;ended t1;sealed a1;committed a1;acked s2 t2"
)
OPEN_TWO = "script;begin;end;script;begin;end"
EXAMPLES: list[tuple[str, str, str, str]] = [
    ("waiting", WAITING_JOB, WAITING, ""),
    ("captured", "script;create /a;commit;script;stat /;create /b",
     "begin t1 s1;done t1 s1 c1 ok;ended t1;begin t2 s2;fuse a1 a2 n23;done t2 s2 c1 attr 40755 2 1 0 0 0 0 0;ended t2;"
     "sealed a1;begin t3 s2;done t3 s2 c2 ok;ended t3;committed a1;acked s1 t1;sealed a3;committed a3", ""),
    ("usual", "script;mkdir /etc;create /etc/hosts;write /etc/hosts 0 127.0.0.1 localhost;commit",
     "begin t1 s1;done t1 s1 c1 ok;ended t1;begin t2 s1;fuse a1 a2 n23;done t2 s1 c2 ok;ended t2;begin t3 s1;"
     "fuse a1 a3 n23;done t3 s1 c3 ok;ended t3;sealed a1;committed a1;acked s1 t3", ""),
    ("inside", "script;begin;create /a;script;stat /",
     "begin t1 s1;begin t2 s2;done t2 s2 c1 attr 40755 2 0 0 0 0 0 0;ended t2;fuse a1 a2 n23;done t1 s1 c2 ok;ended t1;"
     "sealed a1;committed a1", ""),
    ("failing", "script;create /a;commit;stat /",
     MADE + ";broken 8 1;refused t0 s1 c2 reopen 8;refused t0 s1 c3 reopen 8",
     "in no committed atom .IsWhole"),
    ("seals_open", "script;create /a", "begin t1 s1;done t1 s1 c1 ok;sealed a1", "MayFollow, Sealed"),
    ("seals_none", "script", "sealed a0", "IsUnsealed"),
    ("seals_two", OPEN_TWO, TWO + ";sealed a1;sealed a2", "MayFollow, Sealed"),
    ("keeps_the_larger", OPEN_TWO, "begin t1 s1;begin t2 s2;fuse a2 a1 n23", "MayFollow, Fuse"),
    ("keeps_the_gone", OPEN_TWO + ";script;begin;end",
     "begin t1 s1;begin t2 s2;begin t3 s3;fuse a1 a2 n23;fuse a2 a3 n23", "IsUnsealed"),
    ("does_for_another", "script;begin;stat /;end;script;begin;stat /;end",
     "begin t1 s1;begin t2 s2;done t2 s1 c2 attr 40755 2 0 0 0 0 0 0", "MayFollow, Done"),
    ("begins_twice", "script;begin;end;begin;end", "begin t1 s1;begin t2 s1", "MayFollow, Begin"),
    ("begins_the_third", OPEN_TWO, "begin t1 s1;begin t3 s2", "MayFollow, Begin"),
    ("ends_twice", "script;begin;end;begin;end", "begin t1 s1;ended t1;ended t1", "MayFollow, Ended"),
    ("acks_early", "script;create /a;commit", MADE + ";acked s1 t1", "MayFollow, Acked"),
    ("commits_another", OPEN_TWO, TWO + ";sealed a1;committed a2", "MayFollow, Committed"),
    ("commits_broken", "script;create /a", MADE + ";broken 8 1;committed a1", "MayComeNow"),
    ("skips", "script;stat /;stat /", STAT.replace("c1", "c2"), "Answers, Done"),
    ("stays_open", "script;mkdir /etc;commit", "begin t1 s1;done t1 s1 c1 ok", "AllClosed"),
    ("other_reply", "script;stat /", "begin t1 s1;done t1 s1 c1 ok;ended t1", "HasItsReplies"),
    # What is read in an atom that is sealed first was made in another one: legal, and not safe.
    ("reads_unsealed", "script;create /a;script;stat /a",
     "begin t1 s1;done t1 s1 c1 ok;ended t1;begin t2 s2;done t2 s2 c1 attr 100644 1 0 0 0 0 0 0;ended t2;sealed a2;"
     "committed a2;sealed a1;committed a1", "HasItsReplies"),
]


# ---- what is told


def told(name: str, fault: str | None, wanted: str) -> bool:
    """Prints one line, and whether the fault is as it is wanted: one that names a rule, or none."""
    is_so = fault is None if not wanted else fault is not None and re.search(wanted, fault) is not None
    print(f"{'as wanted' if is_so else 'NOT AS WANTED'}: {name}: {fault or 'legal'}")
    return is_so


def tried(script: str, lines: Lines, options: list[str], name: str, way: Way, wanted: str) -> bool:
    try:
        changed = way(lines)
    except NoPlace as form:
        print(f"MISSED: {name}: no place for {form}")
        return False
    return told(name, fault_of(job_of(script), "".join(f"{line}\n" for line in changed), None, set(options)), wanted)


def main(words: list[str]) -> int:
    if len(words) != 2:
        print("usage: tools/try_check_trace.py SCRIPT TRACE", file=sys.stderr)
        return 2
    script, trace = map(text_of, words)
    lines = trace.split("\n")[:-1]
    broken = broken_trace(script, lines)
    read_refused = replaced(DONE + "(data|attr|names) .*", "^done (t.* c[0-9]+) .*", r"refused \1 memory")
    results = [
        tried(script, lines, WHOLE, "as it is", list, ""),
        tried(script, lines, WHOLE, "another node", replaced("fuse .*", r"( n)(\d+)", one_more), ""),
        tried(script, lines, WHOLE, "a read is refused", read_refused, ""),
        told("the last line has no newline", fault_of(job_of(script), trace[:-1], None, set()), "does not end"),
        *(tried(script, lines, WHOLE, *way) for way in WAYS),
        tried(script, broken, [], "a call fails", list, ""),
        tried(script, broken, WHOLE, "a call fails, as a whole trace", list, "IsWhole"),
        *(tried(script, broken, [], *way) for way in BROKEN_WAYS),
        *(
            tried(job.replace(";", "\n"), small.split(";"), WHOLE, name, list, wanted)
            for name, job, small, wanted in EXAMPLES
        ),
    ]
    print(f"{results.count(True)} of {len(results)} as wanted")
    return 0 if all(results) else 1


if __name__ == "__main__":
    sys.exit(main(sys.argv[1:]))
