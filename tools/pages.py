#!/usr/bin/env python3
"""Makes docs/trust.md. With --check it writes nothing, tells what is stale in the pages, and ends with status 1.

docs/trust.md lists the definitions on which the promises of the top call rest. They are found by their names in the
text of specs/: a definition rests on each one of the repository that its own text names, but for its own variables and
fields. (What stands behind `←` is handed on by `>>=`, so that one is named there too.) --check looks besides whether
each crate has its rows, whether README.md is short and names crates and clauses that docs/proved.md tells of, whether
what docs/changing.md names is there, and whether each page and section that a source file names is.
"""
import collections
import glob
import os
import re
import sys

ROOT = os.path.dirname(os.path.dirname(os.path.abspath(__file__)))
HEAD = re.compile(r"(?:(?:abbrev|unfoldable|opaque) )?(?:pub )?(record |data )?((?!pub\b|infixl\b)[A-Za-z_][\w']*|◌\S*◌)")
OPERATOR = re.compile(r"(?<=\s)[^\w\s(){}\[\].,:;'\"]+(?=\s)")
WORD = re.compile(r"(?<![\w'.])[A-Za-z_][\w']*")
# (a crate may name another one's definitions by way of a third: then the last crate named is theirs)
IMPORT = re.compile(r"^use Rattle\.(?:\w+\.specs\.(?=r4_))*(\w+)(?:\.specs)?\.([\w.]+)\.\{([^}]*)\}", re.M)

# How long README.md may be, and calls that are named as crates are.
MOST_LINES = 120
# How many paths crates.txt may have: the gate reads a crate's files once for each that leads to it (docs/gate.md).
MOST_PATHS = 210_000
CALLS = {"r4_main"}

# The promises, in reading order: what each says, and the definitions that its clauses cite.
TOP, OFFLINE, WORDS = "r4_top.Answers", "r4_offline.Answers", "r4_words.Words"
CHECKS = "r4_offline.Checks"
DEVICE, REPLAY, MKFS = "r4_outside.Device", "r4_replay.Replay", "r4_mkfs.Mkfs"
RUN, WORKLOAD, BEGINS = "r4_run.Scripts", "r4_run.Generated", "r4_run.Naming"
COMPLETE = "r4_run.Completing"
PROMISES = [
    (
        "`replay`",
        "`Replays` says for each status when it comes, what is printed and what the device holds; `SettlesAlways` what"
        " a crash leaves at any moment, from a device that is quiet (`IsQuiet`); `Goes` that clock and faults only"
        " rise.",
        [(OFFLINE, "Replays"), (REPLAY, "SettlesAlways"), (DEVICE, "IsQuiet"), (DEVICE, "Goes")],
    ),
    (
        "`mkfs`",
        "`Makes` says for each status when it comes, what is printed and what the device holds; `MakesInOrder` and"
        " `Spares` what a crash leaves at any moment.",
        [(OFFLINE, "Makes"), (MKFS, "MakesInOrder"), (MKFS, "IsWritten")]
        + [(DEVICE, "Spares"), (DEVICE, "IsQuiet"), (DEVICE, "Goes")],
    ),
    (
        "`list`",
        "`Lists` says for each status when it comes and what is printed, and that nothing is written.",
        [(OFFLINE, "Lists"), (REPLAY, "SettlesAlways"), (DEVICE, "IsQuiet"), (DEVICE, "Goes")],
    ),
    (
        "`check`",
        "`ChecksImage` says for each status when it comes and what is printed, which faults there are, and that nothing"
        " is written.",
        [(CHECKS, "ChecksImage"), (REPLAY, "SettlesAlways"), (DEVICE, "IsQuiet"), (DEVICE, "Goes")],
    ),
    (
        "`run`",
        "`Runs` says for each status when it comes, and of a run that there is one trace (`Ran`): legal, crash-safe on the"
        " device at each moment, by the status whole, and printed. `Begins` is what the caller owes who names with what"
        " the run began. `IsUnhindered` is a run against which nothing stands. `RunsWorkload` and `IsClear` are the same for"
        " a generated workload, of whose trace the summary is printed.",
        [(RUN, "Runs"), (WORKLOAD, "RunsWorkload"), (BEGINS, "Begins"), (COMPLETE, "IsUnhindered"), (DEVICE, "Goes")],
    ),
    (
        "The words of the command line",
        "`Answers` and `HasMoments` pick the promise by what the words ask for (`asked_of`); `RefusesWords` speaks of"
        " faulty ones. `RunsAsked` and `IsFree` say whether a run is one of scripts or of a generated workload.",
        [(TOP, "Answers"), (TOP, "HasMoments"), (TOP, "IsRun"), (TOP, "LeavesSource"), (WORDS, "asked_of")]
        + [(TOP, "RunsAsked"), (TOP, "IsFree")],
    ),
]


class Definition:
    """One definition: its file as crate.Module, its name, its lines with its comment, and the names that it uses."""

    def __init__(self, module, name, is_data):
        self.module, self.name, self.is_data, self.lines = module, name, is_data, []

    def constructors(self):
        return re.findall(r"^  +pub (\w+) :", "\n".join(self.lines), re.M) if self.is_data else []

    def words(self):
        lines = (re.sub(r'"[^"]*"', '""', line) for line in self.lines if not line.lstrip().startswith("--"))
        code = "\n".join(line.split("--")[0] for line in lines)
        code = re.sub(r"^(  +pub )\w+ :", r"\1:", code, flags=re.M)
        code = re.sub(r"([{;]\s*)\w+ =", r"\1=", code)
        bound = re.findall(r"λ ([^.]*)\.", code) + re.findall(r"\(([\w' ]+) :", code)
        bound += re.findall(rf"^{re.escape(self.name)}\b([^=]*)=", code, re.M)
        variables = {word for text in bound for word in WORD.findall(text) if word[0].islower()}
        signs = {f"◌{sign}◌" for sign in OPERATOR.findall(code.replace("←", ">>="))}
        return set(WORD.findall(code)) - variables | signs


def parts(module, text):
    """The definitions of a file, each with the comment above it."""
    found, comment = [], []
    for line in text.split("\n"):
        head = HEAD.match(line)
        if line.startswith("use ") or line.startswith("-- ----"):
            comment = []
        elif line.startswith("--"):
            comment.append(line)
        elif line.startswith((" ", "(")):
            if found:
                found[-1].lines += comment + [line]
            comment = []
        elif head and not (found and found[-1].name == head[2]):
            found.append(Definition(module, head[2], head[1] == "data "))
            found[-1].lines += comment + [line]
            comment = []
        elif head:
            found[-1].lines += comment + [line]
            comment = []
        else:
            comment = []
    return found


class Specs:
    """All definitions of the repository, and for each file what its imports name."""

    def __init__(self):
        self.definitions, self.imports = {}, {}
        for path in sorted(glob.glob(f"{ROOT}/crates/*/specs/*.antt")):
            crate, _, file = path.split("/")[-3:]
            module = f"{crate}.{file[:-5]}"
            with open(path) as opened:
                text = opened.read()
            for one in parts(module, text):
                self.definitions[module, one.name] = one
                for name in one.constructors():
                    self.definitions.setdefault((module, name), one)
            self.imports[module] = {
                alias: (low, where, name)
                for low, where, names in IMPORT.findall(text)
                for name, alias in ((it.split(" as ") * 2)[:2] for it in names.split(", "))
            }

    def below(self, one, others):
        """The definitions that one names; what is a Rust type or a word of the kit goes into the sets of `others`."""
        for word in sorted(one.words()):
            low, where, name = self.imports[one.module].get(word, (*one.module.split("."), word))
            if (f"{low}.{where}", name) in self.definitions:
                yield self.definitions[f"{low}.{where}", name]
            elif where.startswith("declared."):
                kind = "constants" if where.endswith("TheConstants") else "types"
                others[kind].add(where.split(".")[-2] if where.endswith("TheVariants") else name)
            elif low == "std" and not name.startswith("◌"):
                others["words"].add(name)

    def under(self, start, others):
        """All that these rest on, with themselves, the nearest first."""
        found = dict.fromkeys(self.definitions[key] for key in start)
        left = collections.deque(found)
        while left:
            for one in self.below(left.popleft(), others):
                if one not in found:
                    found[one] = None
                    left.append(one)
        return list(found)


def lines_of(definitions):
    return sum(len(one.lines) for one in definitions)


def table(definitions, specs):
    """A row for each file, in the order in which the files are met; in a row the definitions stand as in the file."""
    by_file = collections.defaultdict(set)
    for one in definitions:
        by_file[one.module].add(one)
    order = {one: i for i, one in enumerate(dict.fromkeys(specs.definitions.values()))}
    rows = ["| file | lines | definitions |", "|---|---|---|"]
    for module, ones in by_file.items():
        crate, file = module.split(".")
        names = ", ".join(f"`{one.name}`" for one in sorted(ones, key=order.get))
        rows.append(f"| `{crate}/specs/{file}.antt` | {lines_of(ones)} | {names} |")
    return rows


def trust_page():
    specs = Specs()
    others = collections.defaultdict(set)
    read, out = set(), []
    for title, says, start in PROMISES:
        under = specs.under(start, others)
        new = [one for one in under if one not in read]
        files = len({one.module for one in under})
        out += ["", f"## {title}", ""]
        out.append(f"{says} It rests on {len(under)} definitions, {lines_of(under)} lines in {files} files.")
        if read:
            out[-1] += f" {len(new)} of them, {lines_of(new)} lines, are not in the tables above:"
        out += ["", *table(new, specs)]
        read.update(under)
    out += ["", "## What is left out", ""]
    for kind, says in (
        ("types", "The types of the program, whose fields and variants the definitions name"),
        ("constants", "The numbers of the format (`r4_base/src/limits.rt`, `plugin.rt`; docs/layout.md)"),
        ("words", "The kit's words, which its own guides explain"),
    ):
        out += [f"{says}: " + ", ".join(f"`{name}`" for name in sorted(others[kind])) + ".", ""]
    head = [
        "# What has to be read to believe a promise",
        "",
        "A proof says that the code does what the definitions say. That the definitions say what a reader takes them to"
        " say, no proof tells. This page lists, for each promise of the top call `r4_main` (`r4_top/src/top.rt`), the"
        " definitions on which it rests, so that they can be read and all else can be skipped: "
        f"{len(read)} definitions, {lines_of(read)} lines with their comments, serve all five commands.",
        "",
        "In each table the promise comes first, and then what it names. Within a file the definitions are best read in"
        " the order in which they stand. tools/pages.py makes this page; it finds the definitions by their names, so"
        " that one too many may be listed, where a variable is called as a definition is.",
    ]
    return "\n".join(head + out).rstrip("\n") + "\n"


def read(path):
    with open(f"{ROOT}/{path}") as file:
        return file.read()


def crates_without_rows():
    """Crates that a page does not name: docs/proved.md has a row for each, or a line in "Only tested" for one of tests."""
    names = re.findall(r"^(r4_\w+)[^:\n]*:", read("crates.txt"), re.M)
    pages = {page: read(page) for page in ("docs/proved.md", "docs/architecture.md")}
    for name in names:
        is_test = name.endswith("_tests") or name.endswith("_testing")
        for page, text in pages.items():
            wanted = f"`{name}`" if is_test or page == "docs/architecture.md" else f"\n| `{name}` |"
            if wanted not in text:
                yield f"{page} does not tell of {name}"


def readme_faults():
    """README.md is to be read: its length, that of its rows of crates, and crates and clauses that are not there."""
    names = re.findall(r"^(r4_\w+)[^:\n]*:", read("crates.txt"), re.M)
    lines = read("README.md").split("\n")
    proved = read("docs/proved.md")
    if len(lines) > MOST_LINES:
        yield f"README.md has {len(lines)} lines, and {MOST_LINES} are enough"
    for line in lines:
        for name in re.findall(r"`(r4_[a-z0-9_]+)`", line):
            if name not in names and name not in CALLS:
                yield f"README.md names {name}, which is no crate"
        if line.startswith("| `r4_"):
            if len(line) > 160:
                yield f"README.md has a row of {len(line)} characters: {line[:30]}"
            for word in re.findall(r"`(\w+)`", line.split("|", 2)[2]):
                if word not in CALLS and f"`{word}`" not in proved:
                    yield f"README.md names {word}, of which docs/proved.md does not tell"


def too_many_paths():
    """The paths of crates.txt, from each crate down to each that it stands on, where these are too many for the gate."""
    lines = re.findall(r"^(r4_\w+)[^:\n]*:(.*)", read("crates.txt"), re.M)
    paths = {}
    for name, low in lines:
        paths[name] = 1 + sum(paths[it] for it in low.split() if it.startswith("r4_"))
    if sum(paths.values()) > MOST_PATHS:
        yield f"crates.txt has {sum(paths.values())} paths, and {MOST_PATHS} are enough: name crates by way of others"


def has_section(page, section):
    return re.search(rf"^#+ {re.escape(section)}$", read(f"docs/{page}"), re.M)


def stale_rules():
    """Files that docs/changing.md names and that are not there, and names that a file does not have."""
    for line in read("docs/changing.md").split("\n"):
        for path, names in re.findall(r"`(r4_\w+/[\w/.-]+)`((?: `[^`]+`)*)", line):
            if not os.path.exists(f"{ROOT}/crates/{path}"):
                yield f"docs/changing.md names {path}, which is not there"
                continue
            for name in re.findall(r"`([^`]+)`", names):
                if not re.search(rf"\b{re.escape(name)}\b", read(f"crates/{path}")):
                    yield f"docs/changing.md names {name} of {path}, which does not have it"
        for page, sections in re.findall(r"([\w-]+\.md)((?:(?:, | and )\"[^\"]+\")*)", line):
            for section in re.findall(r"\"([^\"]+)\"", sections):
                if not has_section(page, section):
                    yield f'docs/changing.md names "{section}" of {page}, which does not have it'


def missing_sections():
    """Pages and sections that a source file names and that are not there."""
    sources = [f"{ROOT}/crates/*/{part}/**/*.*t" for part in ("src", "specs", "proofs")]
    for path in sorted(path for source in sources for path in glob.glob(source, recursive=True)):
        with open(path) as file:
            named = set(re.findall(r'(docs/[\w-]+\.md)(?:, "([^"\n]+)")?', file.read()))
        for page, section in sorted(named):
            where = os.path.relpath(path, ROOT)
            if not os.path.exists(f"{ROOT}/{page}"):
                yield f"{where} names {page}, which is not there"
            elif section and not has_section(page[5:], section):
                yield f'{where} names "{section}" of {page}, which does not have it'


def conflict_marks():
    """Pages with marks of a merge that was not finished."""
    pages = ["README.md", "crates.txt", *(f"docs/{name}" for name in sorted(os.listdir(f"{ROOT}/docs")))]
    for page in pages:
        if page.endswith((".md", ".txt")) and re.search(r"^(<{7}|={7}|>{7})( |$)", read(page), re.M):
            yield f"{page} has marks of a merge that was not finished"


def check():
    stale = [*crates_without_rows(), *too_many_paths(), *readme_faults(), *stale_rules(), *missing_sections()]
    stale += conflict_marks()
    if not os.path.exists(f"{ROOT}/docs/trust.md") or read("docs/trust.md") != trust_page():
        stale.append("docs/trust.md is stale: run tools/pages.py")
    for line in stale:
        print(f"pages: {line}", file=sys.stderr)
    return 1 if stale else 0


def main(words):
    if words == ["--check"]:
        return check()
    if words:
        print(__doc__, file=sys.stderr)
        return 2
    with open(f"{ROOT}/docs/trust.md", "w") as out:
        out.write(trust_page())
    return 0


if __name__ == "__main__":
    sys.exit(main(sys.argv[1:]))
