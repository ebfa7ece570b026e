"""What commands mean: a second reading of crates/r4_content/specs, for tools/check_trace.py.

The functions have the names of the definitions (docs/commands.md, "What each command does"; Meaning, Ways, Entries,
Bodies, Objects). A content is held here as objects that name one another instead of values at keys, which is the same
for lawful contents, and each content that commands make of an empty volume is lawful (`lawful_contents_stay_lawful`).
Entries do stand at the keys of their names, so that two names of one key clash, and names are told in the order of
their keys. Ids of objects and the space that they take are left out, since no line shows them.

All text is latin-1, one character for each byte.
"""
from __future__ import annotations

import functools
from dataclasses import dataclass, field
from typing import Callable

from trace_job import Command, Path

GREATEST_SIZE = 2**30
MOST_LINKS = 65535


# ---- names and their keys (r4_base/specs/Name.antt)


def has_name_fault(name: str) -> bool:
    """Names are 1 to 255 bytes, none of them 0 or `/`, and neither `.` nor `..`."""
    return not 1 <= len(name) <= 255 or "\0" in name or "/" in name or name in (".", "..")


def is_path(path: Path) -> bool:
    return not any(has_name_fault(name) for name in path)


def packed(count: int, name: bytes) -> int:
    return int.from_bytes(name[:count].ljust(count, b"\0"), "big")


def r5_of(name: bytes) -> int:
    value = 0
    for byte in name:
        value = (value + 16 * byte + byte // 16) * 11 % 2**64
    return value


Key = tuple[int, int, int]


@functools.lru_cache(maxsize=None)
def key_of_name(name: str) -> Key:
    """The key of a name, but for its directory."""
    whole = name.encode("latin-1")
    is_long = len(whole) > 23
    last = r5_of(whole[15:]) if is_long else packed(8, whole[15:])
    return (2**56 if is_long else 0) + packed(7, whole), packed(8, whole[7:]), last


# ---- objects


@dataclass(eq=False)
class Object:
    """A file or a directory with its attributes. Two are the same where they are one in memory."""

    mode: int
    nlink: int
    size: int = 0
    uid: int = 0
    gid: int = 0
    atime: int = 0
    mtime: int = 0
    ctime: int = 0
    entries: dict[Key, tuple[str, Object]] = field(default_factory=dict)
    body: bytearray = field(default_factory=bytearray)

    def is_dir(self) -> bool:
        return self.mode // 4096 == 4

    def is_full(self) -> bool:
        return self.nlink >= MOST_LINKS

    def in_order(self) -> list[tuple[str, Object]]:
        """The entries of a directory in the order of their keys."""
        return [self.entries[key] for key in sorted(self.entries)]


def new_file() -> Object:
    return Object(mode=0o100644, nlink=1)


def new_directory() -> Object:
    return Object(mode=0o40755, nlink=2)


@dataclass
class Content:
    """What a volume holds, told by its root."""

    root: Object = field(default_factory=new_directory)


# ---- ways: a course ends by an answer, which is raised where it is a refusal


class Answer(Exception):
    """The course ends with this reply, and changes nothing."""

    def __init__(self, reply: str):
        super().__init__(reply)
        self.reply = reply


@dataclass
class Place:
    """An object, and those on the way to it, from the root on."""

    here: Object
    above: list[Object]


def step(name: str, place: Place) -> Place:
    """One step down: it needs a directory, and in it an entry of exactly that name."""
    if not place.here.is_dir():
        raise Answer("notdir")
    found = place.here.entries.get(key_of_name(name))
    if found is None or found[0] != name:
        raise Answer("absent")
    return Place(found[1], place.above + [place.here])


def to_object(content: Content, path: Path) -> Place:
    place = Place(content.root, [])
    for name in path:
        place = step(name, place)
    return place


def to_parent(refusal: str, content: Content, path: Path) -> tuple[Place, str]:
    if not path:
        raise Answer(refusal)
    return to_object(content, path[:-1]), path[-1]


def to_entry(refusal: str, content: Content, path: Path) -> tuple[Object, str, Place]:
    place, name = to_parent(refusal, content, path)
    return place.here, name, step(name, place)


def to_free(content: Content, path: Path) -> tuple[Object, str]:
    """The directory in which the last name of a path is free."""
    place, name = to_parent("exists", content, path)
    if not place.here.is_dir():
        raise Answer("notdir")
    found = place.here.entries.get(key_of_name(name))
    if found is not None:
        raise Answer("exists" if found[0] == name else f"clash {found[0]}")
    return place.here, name


def to_file(content: Content, path: Path, end: int) -> Object:
    """A file, for bytes that end at an offset."""
    here = to_object(content, path).here
    if here.is_dir():
        raise Answer("isdir")
    if end > GREATEST_SIZE:
        raise Answer("toobig")
    return here


# ---- entries come, go and move


def entry_more(is_dir: bool, parent: Object) -> None:
    parent.size = min(parent.size + 1, 2**64 - 1)
    if is_dir:
        parent.nlink = min(parent.nlink + 1, 2**32 - 1)


def entry_less(is_dir: bool, parent: Object) -> None:
    parent.size = max(parent.size - 1, 0)
    if is_dir:
        parent.nlink = max(parent.nlink - 1, 0)


def name_in(parent: Object, name: str, named: Object) -> None:
    """An object gets a name in a directory."""
    parent.entries[key_of_name(name)] = (name, named)
    entry_more(named.is_dir(), parent)


def unnamed(gone: Object) -> None:
    """An entry that names the object goes. With its last one a file goes, and nothing leads to it any more."""
    if not gone.is_dir():
        gone.nlink = max(gone.nlink - 1, 0)


def unname_in(parent: Object, name: str, gone: Object) -> None:
    del parent.entries[key_of_name(name)]
    entry_less(gone.is_dir(), parent)
    unnamed(gone)


def create(content: Content, command: Command) -> None:
    parent, name = to_free(content, command.paths[0])
    name_in(parent, name, new_file())


def mkdir(content: Content, command: Command) -> None:
    parent, name = to_free(content, command.paths[0])
    if parent.is_full():
        raise Answer("links")
    name_in(parent, name, new_directory())


def link(content: Content, command: Command) -> None:
    linked = to_object(content, command.paths[0]).here
    if linked.is_dir():
        raise Answer("isdir")
    parent, name = to_free(content, command.paths[1])
    if linked.is_full():
        raise Answer("links")
    linked.nlink += 1
    name_in(parent, name, linked)


def names(content: Content, command: Command) -> None:
    here = to_object(content, command.paths[0]).here
    if not here.is_dir():
        raise Answer("notdir")
    raise Answer(" ".join(["names", str(len(here.entries)), *(name for name, _ in here.in_order())]))


def unlink(content: Content, command: Command) -> None:
    parent, name, place = to_entry("isdir", content, command.paths[0])
    if place.here.is_dir():
        raise Answer("isdir")
    unname_in(parent, name, place.here)


def if_empty(directory: Object) -> None:
    if directory.entries:
        raise Answer("notempty")


def rmdir(content: Content, command: Command) -> None:
    parent, name, place = to_entry("loop", content, command.paths[0])
    if not place.here.is_dir():
        raise Answer("notdir")
    if_empty(place.here)
    unname_in(parent, name, place.here)


def may_replace(moving: Object, old: Object) -> None:
    """A directory takes the place of an empty directory, and a file that of a file."""
    if moving.is_dir() and not old.is_dir():
        raise Answer("notdir")
    if old.is_dir() and not moving.is_dir():
        raise Answer("isdir")
    if moving.is_dir():
        if_empty(old)


def moved(parent: Object, name: str, moving: Object, new_parent: Object, new_name: str) -> None:
    del parent.entries[key_of_name(name)]
    entry_less(moving.is_dir(), parent)
    name_in(new_parent, new_name, moving)


def move(parent: Object, name: str, moving: Object, new_parent: Object, new_name: str) -> None:
    """What stands at the new name's key decides."""
    found = new_parent.entries.get(key_of_name(new_name))
    if found is None:
        if moving.is_dir() and parent is not new_parent and new_parent.is_full():
            raise Answer("links")
    elif found[0] != new_name:
        raise Answer(f"clash {found[0]}")
    elif found[1] is moving:
        raise Answer("ok")
    else:
        may_replace(moving, found[1])
        unname_in(new_parent, new_name, found[1])
    moved(parent, name, moving, new_parent, new_name)


def rename(content: Content, command: Command) -> None:
    old, new = command.paths
    if not new:
        raise Answer("loop")
    parent, name, place = to_entry("loop", content, old)
    target, new_name = to_parent("loop", content, new)
    if not target.here.is_dir():
        raise Answer("notdir")
    if place.here.is_dir() and any(place.here is above for above in [*target.above, target.here]):
        raise Answer("loop")
    move(parent, name, place.here, target.here, new_name)


# ---- bytes


def grown(file: Object, size: int) -> None:
    """Zeros from the size up to an offset."""
    if file.size < size:
        file.body.extend(bytes(size - file.size))
        file.size = size


def written(content: Content, path: Path, offset: int, text: bytes) -> None:
    file = to_file(content, path, offset + len(text))
    if text:
        grown(file, offset + len(text))
        file.body[offset:offset + len(text)] = text


def write(content: Content, command: Command) -> None:
    written(content, command.paths[0], command.numbers[0], command.text.encode("latin-1"))


def fill(content: Content, command: Command) -> None:
    offset, length, byte = command.numbers
    written(content, command.paths[0], offset, bytes([byte]) * length)


def truncate(content: Content, command: Command) -> None:
    size = command.numbers[0]
    file = to_file(content, command.paths[0], size)
    grown(file, size)
    del file.body[size:]
    file.size = size


def read(content: Content, command: Command) -> None:
    here = to_object(content, command.paths[0]).here
    if here.is_dir():
        raise Answer("isdir")
    offset, length = command.numbers
    found = here.body[offset:offset + length]
    raise Answer(f"data {len(found)} {found.hex()}" if found else "data 0")


# ---- attributes


def stat(content: Content, command: Command) -> None:
    it = to_object(content, command.paths[0]).here
    counts = f"{it.nlink} {it.size} {it.uid} {it.gid} {it.atime} {it.mtime} {it.ctime}"
    raise Answer(f"attr {it.mode:o} {counts}")


def chmod(content: Content, command: Command) -> None:
    here = to_object(content, command.paths[0]).here
    here.mode = here.mode // 4096 * 4096 + command.numbers[0] % 4096


def chown(content: Content, command: Command) -> None:
    here = to_object(content, command.paths[0]).here
    here.uid, here.gid = command.numbers


def times(content: Content, command: Command) -> None:
    here = to_object(content, command.paths[0]).here
    here.atime, here.mtime, here.ctime = command.numbers


ON_ENTRIES = (create, mkdir, link, names, unlink, rmdir, rename)
ON_BYTES = (write, fill, truncate, read)
ON_ATTRIBUTES = (stat, chmod, chown, times)
COURSES: dict[str, Callable[[Content, Command], None]] = {
    course.__name__: course for course in (*ON_ENTRIES, *ON_BYTES, *ON_ATTRIBUTES)
}


def course(content: Content, command: Command) -> str:
    """Does a command that is work, and tells its reply, as a line shows it (`after` and `reply` of Meaning)."""
    try:
        if not all(is_path(path) for path in command.paths):
            raise Answer("name")
        COURSES[command.word](content, command)
        return "ok"
    except Answer as answer:
        return answer.reply


# ---- listings (r4_list/specs/Listing.antt)


def line_of(it: Object, path: str) -> str:
    kind = "d" if it.is_dir() else "f"
    return f"{kind} {it.mode % 4096:04o} {it.nlink} {it.uid} {it.gid} {it.size} {path or '/'}\n"


def lines_of(it: Object, path: str) -> list[tuple[str, Object]]:
    """The line of an object and of all that is below it, each with its object."""
    lines = [(line_of(it, path), it)]
    if it.is_dir():
        for name, named in it.in_order():
            lines += lines_of(named, f"{path}/{name}")
    return lines


def listing_of(content: Content) -> str:
    """What `list IMAGE /` prints."""
    return "".join(line for line, _ in lines_of(content.root, ""))


def listing_with_files(content: Content) -> str:
    """The same, and behind it what `list IMAGE PATH` prints of each file, in the listing's order."""
    files = [(line, it) for line, it in lines_of(content.root, "") if not it.is_dir()]
    return listing_of(content) + "".join(f"{line}{it.body.decode('latin-1')}\n" for line, it in files)
