#!/usr/bin/env python3
"""Proves crates between two runs of the gate, over libraries that are kept for each state of what they stand on.

    tools/kept.py prove [CRATE..]   from the root: all crates, or these and what they need
    tools/kept.py tests [CRATE..]   their tests, proved and run
    tools/kept.py edits [CRATE..]   their edits that must fail (tools/edits.py)
    tools/kept.py check [FLAG..]    from a crate's folder: a check with these flags of rattle's
    tools/kept.py dear [FLAG..]     from a crate's folder: a check from nothing, and which modules took the longest
    tools/kept.py times             from the root: a table of the processor minutes of what is kept

A library is made as the gate makes it, and kept in the folder R4_KEPT (/tmp/r4-kept where it is not set) under a sum of
all files that it stands on: so clones and branches share what is the same, and to go back costs nothing. It prints what
processor time each took. What the proof of a crate printed stands beside its library, in `log`, and that of its tests in
`tests.log`: so no clone writes over another one's. Only `rt ci` is the gate.
"""
import concurrent.futures
import fcntl
import hashlib
import importlib.machinery
import importlib.util
import io
import os
import re
import shutil
import subprocess
import sys
import tempfile
import threading

KEPT = os.environ.get("R4_KEPT", "/tmp/r4-kept")
EDITS = os.path.join(os.path.dirname(os.path.abspath(__file__)), "edits.py")


def edits_tool():
    spec = importlib.util.spec_from_loader("edits", importlib.machinery.SourceFileLoader("edits", EDITS))
    made = importlib.util.module_from_spec(spec)
    spec.loader.exec_module(made)
    return made


TOOL = edits_tool()
RT = TOOL.kit()
RATTLE = [*RT.rtlib.guarded(), os.path.join(os.path.dirname(RT.__file__), "rattle")]
below_unkept = RT.rtlib.Crate.below
SUMS, BELOW = {}, {}

with open(os.path.join(os.path.dirname(RATTLE[-1]), "..", "WHAT"), "rb") as which:
    WHICH_KIT = which.read()


def stamp(crate):
    """A sum of the kit, the crate's files and all that it stands on, which is made once."""
    if crate.folder not in SUMS:
        made = hashlib.sha256(repr((crate.said, crate.has_c)).encode())
        made.update(WHICH_KIT)
        for file in sorted(RT.rtlib.files_of(crate.folder)):
            with open(file, "rb") as opened:
                made.update(repr((file.replace(crate.folder, ""), opened.read())).encode())
        made.update(repr([dep.stamp() for dep in crate.deps]).encode())
        SUMS[crate.folder] = made.hexdigest()
    return SUMS[crate.folder]


def below(crate):
    """The crates that it stands on, the lowest first."""
    if crate.folder not in BELOW:
        BELOW[crate.folder] = below_unkept(crate)
    return BELOW[crate.folder]


def place(crate):
    """The folder in which what is made of the crate is kept."""
    return f"{KEPT}/{crate.name}-{crate.stamp()[:20]}"


RT.rtlib.Crate.stamp, RT.rtlib.Crate.below = stamp, below
RT.Crate.stamp, RT.Crate.below = stamp, below
RT.rtlib.Crate = RT.Crate
RT.rtlib.Crate.cuts_libraries = True


def crates_at(top):
    """The project's crates, each with its library where it is kept."""
    RT.Crate.allowed = ("Threads", "Wait")
    found = RT.rtlib.crates_below(top)
    for crate in found:
        for it in [*crate.below(), crate]:
            if it.makes_rlib():
                it.rlib = f"{place(it)}/{it.name}.rlib"
    return found


def refusal(crate, words, tests=False):
    """Why the gate would not take what rattle says of a crate to these words, or None."""
    os.makedirs(f"{crate.folder}/out", exist_ok=True)
    log = f"{place(crate)}/{'tests.log' if tests else 'log'}"
    with open(log, "w", encoding="utf-8") as out:
        made = subprocess.Popen([*RATTLE, *words], cwd=crate.folder, stdin=subprocess.DEVNULL, stdout=out, stderr=out)
        _, status, used = os.wait4(made.pid, 0)
        made.returncode = status
    crate.seconds = used.ru_utime + used.ru_stime
    with open(log, encoding="utf-8", errors="replace") as opened:
        said = opened.read()
    lib, last = RT.rtlib, said.rstrip("\n").split("\n")[-1]
    verdict = [line for line in said.split("\n") if line.startswith("logic=")] or [last]
    if status or not lib.VERDICT.search(said) or " bugs=" in verdict[-1]:
        return f"not proved ({log})"
    if lib.chose_a_term(said, not tests) or lib.swallows_text(said) or lib.CATCHES_ALL.search(said) or lib.EMPTY.search(said):
        return f"proved, but not as the gate asks ({log})"
    return crate.beyond(verdict[-1], tests)


def once(crate, what, call):
    """Makes something of a crate that is not kept yet, and notes it where there is nothing against it."""
    os.makedirs(place(crate), exist_ok=True)
    done = f"{place(crate)}/{what}"
    with open(f"{place(crate)}/lock", "w", encoding="utf-8") as lock:
        fcntl.flock(lock, fcntl.LOCK_EX)
        if os.path.exists(done):
            return True
        why = call()
        print(f"{crate.name}: {what}: {why or 'well'}, {crate.seconds:.0f} processor seconds", flush=True)
        if why is None:
            with open(done, "w", encoding="utf-8") as note:
                note.write(f"{crate.seconds:.0f}")
    return why is None


def prove(crate):
    crate.out = io.StringIO()
    words = [*crate.words(["--jobs", "1"], keeps=False), "--empty-contracts"]
    if crate.makes_rlib():
        return once(crate, "stamp", lambda: refusal(crate, ["build", *words, "--statements", "-o", crate.rlib]))
    return once(crate, "program", lambda: refusal(crate, ["check", *words]))


def tests(crate):
    return not crate.has_tests() or once(crate, "tests.ok", lambda: tests_refusal(crate))


def tests_refusal(crate):
    crate.out, to = io.StringIO(), f"out/{crate.name}_tests"
    words = [*crate.words(["--jobs", "1"], tests=True, keeps=False), "--empty-contracts", "--backend", "llvm"]
    words += ["--toolchain", os.path.join(os.path.dirname(RATTLE[-1]), "..", "toolchain"), "-o", f"{to}.o"]
    why = refusal(crate, ["build", *words], True)
    if why:
        return why
    crate.out = sys.stdout
    return crate.link(f"{to}.o", to) or (None if RT.run(crate, True, "") else "a test fails")


def in_lanes(crates, call, waits):
    """Calls for each crate, with `waits` behind all that it stands on. The names of those for which it did not go well."""
    ended, failed = {it.name: threading.Event() for it in crates}, set()

    def go(crate):
        is_well = False
        try:
            low = [it.name for it in crate.below() if waits and it.name in ended]
            for name in low:
                ended[name].wait()
            is_well = not failed.intersection(low) and call(crate)
        finally:
            if not is_well:
                failed.add(crate.name)
            ended[crate.name].set()

    # each stands behind all that it stands on, so that no lane waits for one that is not begun
    with concurrent.futures.ThreadPoolExecutor(os.cpu_count()) as lanes:
        list(lanes.map(go, sorted(crates, key=lambda it: len(it.below()))))
    return failed


def check(flags):
    """A check of the crate in this folder, over what is kept; what is missing is proved first."""
    here = os.getcwd()
    name = os.path.basename(here)
    crate = next(it for it in crates_at(RT.rtlib.root_above(here)) if it.name == name)
    if in_lanes(crate.below(), prove, True):
        return 1
    crate.out = sys.stderr
    words = ["check", *crate.words(flags), "--incremental", "out/incremental"]
    return subprocess.run([*RATTLE, *words], cwd=here).returncode


def dear(flags):
    """A check of the crate in this folder from nothing, by one job, and the seconds between one module's file and the
    next: what is dear is mostly the `Lts` of a function that owns what has to be dropped and makes many calls."""
    shutil.rmtree("out/incremental", ignore_errors=True)
    status = check(["--jobs", "1", *flags])
    stats = [(os.stat(f"{at}/{it}"), it) for at, _, files in os.walk("out/incremental") for it in files]
    made = sorted((stat.st_mtime, stat.st_size, it) for stat, it in stats)
    gaps = sorted(((new[0] - old[0], *new[1:]) for old, new in zip(made, made[1:])), reverse=True)
    for seconds, size, it in gaps[:15]:
        print(f"{seconds:.1f} s, {size // 1024} KiB: {it}")
    return status


def seconds(crate, what):
    """The processor seconds that something took which is kept, or nothing where it is not."""
    try:
        with open(f"{place(crate)}/{what}", encoding="utf-8") as note:
            return int(note.read())
    except (OSError, ValueError):
        return 0


def times():
    """A table of the processor minutes of all that is kept, in the form of docs/gate.md."""
    found = crates_at(os.getcwd())
    took = {it.name: (seconds(it, "stamp") + seconds(it, "program"), seconds(it, "tests.ok")) for it in found}
    print("| crate | proofs | tests |\n|---|---|---|")
    for name, (proofs, own) in sorted(took.items()):
        print(f"| `{name}` | {proofs / 60:.1f} | {own / 60:.1f} |" if own else f"| `{name}` | {proofs / 60:.1f} | |")
    proofs, own = (sum(it[at] for it in took.values()) / 60 for at in (0, 1))
    print(f"| all | {proofs:.0f} | {own:.0f} |")
    return 0


def main(what, names):
    if what == "times":
        return times()
    if what == "check":
        return check(names)
    if what == "dear":
        return dear(names)
    if what not in ("prove", "tests", "edits"):
        sys.exit(__doc__)
    found = crates_at(os.getcwd())
    if what == "edits":
        RT.rtlib.crates_below = lambda top: found
        TOOL.kit = lambda: RT
        return TOOL.main(None, names)
    those = [it for it in found if not names or it.name in names]
    needed = {low.name for it in those for low in it.below()}
    if what == "prove":
        needed |= {it.name for it in those}
    failed = in_lanes([it for it in found if it.name in needed], prove, True)
    if what == "tests" and not failed:
        failed = in_lanes(those, tests, False)
    print(f"not well: {', '.join(sorted(failed))}" if failed else "all well")
    return 1 if failed else 0


if __name__ == "__main__":
    sys.exit(main(sys.argv[1] if len(sys.argv) > 1 else "", sys.argv[2:]))
