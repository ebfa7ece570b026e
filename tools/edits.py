#!/usr/bin/env python3
"""Tries the edits that must fail: tools/edits.py [--until SECONDS] [CRATE..], from the root of the repository, once the
libraries are proved.

An edit, crates/NAME/edits/*.edit, has the kit's form: lines `file:`, `old:` and `new:`. It changes the body of a function,
and the prover must refuse that function's own proof. All edits of a crate are tried in one check, so that the crate is
proved once and not once for each: they are made together, at most one in a function, and each changed function must be
among those whose own proof is refused. Of another function a proof reads the contract alone, which no edit changes; so no
edit hides another. A second edit of a function comes in a further check, over what the one before it kept. An edit whose
function is not refused, or that changes none, is tried alone, as `rt must-fail` tries it: its caller must be refused.

The crates come by their lines, the shortest first. With --until, a time in seconds since 1970, no check is begun behind
it, and the crates and edits that were not tried are named. Where it is told to end (SIGTERM), it names what is not over,
and its status is 1 where an edit was found before that is not refused.

`rt ci` leaves the libraries that this takes in crates/*/out/rlib; so does `rt lib` in a crate's folder.
"""
import argparse
import concurrent.futures
import importlib.machinery
import importlib.util
import io
import os
import re
import shutil
import signal
import sys
import tempfile
import time

FUNCTION = re.compile(r"(?m)^[ \t]*(?:pub(?:\([a-z]+\))? )?(?:const )?fn (\w+)")
BLOCK = re.compile(r"(?m)^(?:impl(?:<.*?>)? (?:.* for )?(\w+).*\{|\})$")
VERDICT = re.compile(r"(?m)^fn (\S+): (.*)$")


def kit():
    """The kit's own rt, which knows how a crate is checked and what an edit says."""
    found = shutil.which("rt")
    if not found:
        sys.exit("tools/edits.py: rt is not on the path")
    sys.dont_write_bytecode = True
    loader = importlib.machinery.SourceFileLoader("rt", os.path.realpath(found))
    made = importlib.util.module_from_spec(importlib.util.spec_from_loader("rt", loader))
    loader.exec_module(made)
    return made


class Edit:
    """An edit of a crate: its file, the texts that it makes of the crate's files, and the functions that it changes."""

    def __init__(self, crate, path):
        self.path, self.label = path, f"{crate.name}/{os.path.basename(path)}"
        self.pairs, file, old = [], "", ""
        with open(path, encoding="utf-8") as opened:
            for line in opened.read().split("\n"):
                if line.startswith("file: "):
                    file = line.removeprefix("file: ").strip()
                elif line.startswith("old: "):
                    old = line.removeprefix("old: ")
                elif line.startswith("new:"):
                    self.pairs.append((file, old, line.removeprefix("new:").removeprefix(" ")))
        self.functions = {function_at(crate, file, old) for file, old, _ in self.pairs}

    def made_in(self, crate, texts):
        """The texts of the changed files with this edit made too, or None where what it replaces is not there once."""
        made = dict(texts)
        for file, old, new in self.pairs:
            text = made[file] if file in made else text_of(crate, file)
            if text.count(old) != 1:
                return None
            made[file] = text.replace(old, new)
        return made

    def is_refused(self, refused):
        """Whether each function that it changes is among those whose own proof is refused."""
        return all(any(is_at(path, at) for path in refused) for at in self.functions)


def text_of(crate, file):
    with open(f"{crate.folder}/{file}", encoding="utf-8") as opened:
        return opened.read()


def function_at(crate, file, old):
    """The end of the path of the function in which a text stands: its type, or else its module, and its name; or None."""
    text = text_of(crate, file)
    above = text[: text.find(old)]
    names, types = FUNCTION.findall(above), BLOCK.findall(above)
    module = re.sub(r"^src/|(/mod)?\.rt$", "", file).replace("/", "::")
    parts = [(types and types[-1]) or ("" if module in ("lib", "main") else module), *names[-1:]]
    return "::".join(filter(None, parts)) if names else None


def is_at(path, at):
    """Whether this is the path of a function, or of a closure in it, that ends so."""
    return path.endswith(f"::{at}") or f"::fn::{at.split('::')[-1]}::" in path


def own_refusals(said):
    """The functions whose own proof is refused, and not only that of one that they call."""
    found = VERDICT.findall(said)
    return {path for path, what in found if what.startswith("not proved") or "`search` did not prove" in what}


def rounds_of(crate, edits):
    """The edits in rounds: what each makes of the files together, and the edits, at most one of a function."""
    rounds = []
    for edit in edits:
        for at, (texts, others) in enumerate(rounds):
            made = edit.made_in(crate, texts)
            if made is not None and all(edit.functions.isdisjoint(other.functions) for other in others):
                rounds[at] = made, [*others, edit]
                break
        else:
            rounds.append((edit.made_in(crate, {}), [edit]))
    return rounds


def tried_together(rt, crate, edits, late):
    """Those of the edits whose functions are refused, in as few checks as there are edits of one function; where it is
    late, no further check is begun."""
    refused = []
    with tempfile.TemporaryDirectory(prefix="r4-edits-") as kept:
        rounds = rounds_of(crate, edits)
        for texts, those in rounds:
            if late():
                break
            only = [word for edit in those for at in edit.functions for word in ("--only", at)]
            place = kept if len(rounds) > 1 else None
            ran = rt.checked(crate, texts, ["--jobs", "1", *only], place)
            if ran.returncode == 2:
                # a name that several functions have
                ran = rt.checked(crate, texts, ["--jobs", "1"], place)
            found = own_refusals(ran.stdout)
            refused += [edit for edit in those if edit.is_refused(found)]
    return refused


def tried(rt, crate, late):
    """What is to be said of each edit of a crate, and whether all that were tried are refused."""
    crate.out, said, is_well, edits = io.StringIO(), [], True, []
    folder = f"{crate.folder}/edits"
    for name in sorted(os.listdir(folder)):
        why = rt.read_edit(f"{folder}/{name}", crate.folder)[1]
        if why:
            said.append(f"{crate.name}/{name}: BAD EDIT: {why}")
            is_well = False
        else:
            edits.append(Edit(crate, f"{folder}/{name}"))
    refused = tried_together(rt, crate, [it for it in edits if None not in it.functions], late)
    for edit in edits:
        if edit in refused:
            said.append(f"{edit.label}: refused, as it must be, at {', '.join(sorted(edit.functions))}")
        elif late():
            said.append(f"{edit.label}: not tried in this time")
        else:
            well, text = rt.must_fail(crate, edit.path, ["--jobs", "1"])
            said.append(f"{text.removeprefix('must-fail ')} (tried alone)")
            is_well = is_well and well
    return said, is_well


def main(until, names):
    failed, left, runs = [], [], {}

    def ended(signal_number, frame):
        over = {name for run, name in runs.items() if run.done()}
        print(f"edits that must fail: stopped for want of time, in {', '.join(sorted({*runs.values()} - over)) or 'all'}")
        print(f"NOT REFUSED in {', '.join(sorted(failed))}" if failed else "all that were over are refused", flush=True)
        os._exit(1 if failed else 0)

    signal.signal(signal.SIGTERM, ended)
    rt = kit()
    rt.rtlib.guarded()
    crates = [it for it in rt.rtlib.crates_below(os.getcwd()) if not names or it.name in names]
    crates = [it for it in crates if os.path.isdir(f"{it.folder}/edits")]
    crates.sort(key=lambda it: it.count(rb"\n"))
    late = lambda: until is not None and time.time() > until
    with concurrent.futures.ThreadPoolExecutor(rt.processors()) as lanes:
        runs |= {lanes.submit(lambda it: None if late() else tried(rt, it, late), it): it.name for it in crates}
        for run in concurrent.futures.as_completed(runs):
            if run.result() is None:
                left.append(runs[run])
                continue
            said, is_well = run.result()
            print(*said, sep="\n", flush=True)
            failed += [runs[run]] * (not is_well)
    if left:
        print(f"edits that must fail: not tried in this time, in {', '.join(sorted(left))}")
    print(f"edits that must fail: {'NOT REFUSED in ' + ', '.join(sorted(failed)) if failed else 'all that were tried are refused'}")
    return 1 if failed else 0


if __name__ == "__main__":
    words = argparse.ArgumentParser(description="Tries the edits that must fail.")
    words.add_argument("--until", type=float, metavar="SECONDS", help="begin no crate behind this time since 1970")
    words.add_argument("crates", nargs="*", metavar="CRATE")
    given = words.parse_args()
    sys.exit(main(given.until, given.crates))
