#!/usr/bin/env python3
"""Makes an image with many files, from the layout (docs/layout.md), for bench/list.sh:

    make_files.py IMAGE DIRECTORIES FILES

DIRECTORIES directories in the root, /d000 and so on, each with FILES files of 20 bytes, as tails. The leaves are full.
"""
import struct
import sys

BLOCK = 4096
LEAST = (657, 0, 42, 0)


def name_key(directory, name):
    """The key of a short name: its bytes, the first one highest."""
    text = name.encode()
    low = [text[:7], text[7:15], text[15:23]]
    el1 = int.from_bytes(low[0].ljust(7, b"\0"), "big")
    return (directory * 16, el1, *(int.from_bytes(part.ljust(8, b"\0"), "big") for part in low[1:]))


def stat(mode, nlink, size):
    return struct.pack("<HHIQIIIIIQ", 3, mode, nlink, size, 0, 0, 0, 0, 0, size)


def directory_items(directory, targets):
    """Directory items of at most 60 entries."""
    entries = sorted((name_key(directory, name), target) for name, target in targets)
    for first in range(0, len(entries), 60):
        part = entries[first : first + 60]
        head = struct.pack("<H", len(part))
        for i, (key, _) in enumerate(part):
            head += struct.pack("<QQQH", *key[1:], 2 + 26 * len(part) + 24 * i)
        yield part[0][0], 2, head + b"".join(struct.pack("<QQQ", *target) for _, target in part)


def object_items(target, mode, nlink, size, body):
    locality, ordering, oid = target
    yield (locality * 16 + 1, ordering, oid, 0), 0, stat(mode, nlink, size)
    if body:
        yield (locality * 16 + 4, ordering, oid, 0), 6, body


def all_items(directories, files):
    """The items of the volume, by key, and the number of objects and the next id."""
    oid = 65536
    items = list(object_items((41, 0, 42), 0o40755, 2 + directories, directories, b""))
    top = []
    for d in range(directories):
        name = f"d{d:03}"
        target = (42, name_key(42, name)[1], oid)
        oid += 1
        top.append((name, target))
        inside = []
        for f in range(files):
            file_name = f"f{f:05}"
            inside.append((file_name, (target[2], name_key(target[2], file_name)[1], oid)))
            oid += 1
        items += object_items(target, 0o40755, 2, files, b"")
        items += directory_items(target[2], inside)
        for file_name, file in inside:
            items += object_items(file, 0o100644, 1, 20, b"the bytes of %s\n" % file_name.encode().ljust(6)[:6])
    items += directory_items(42, top)
    return sorted(items), 1 + directories * (1 + files), oid


def node(level, items):
    bodies = b"".join(body for _, _, body in items)
    free = BLOCK - 28 - len(bodies) - 38 * len(items)
    head = struct.pack("<HHHHIIQHBB", 0, len(items), free, 28 + len(bodies), 0x52344653, 1, 0, 0, level, 0)
    headers = b""
    at = 28
    for key, plugin, body in items:
        headers = struct.pack("<QQQQHHH", *key, at, 0, plugin) + headers
        at += len(body)
    return head + bodies + bytes(free) + headers


def nodes(level, items):
    """The items as full nodes, each with its first key."""
    part, room = [], BLOCK - 28
    for item in items:
        need = 38 + len(item[2])
        if need > room:
            yield part[0][0], node(level, part)
            part, room = [], BLOCK - 28
        part.append(item)
        room -= need
    yield part[0][0], node(level, part)


def main():
    image, directories, files = sys.argv[1], int(sys.argv[2]), int(sys.argv[3])
    items, objects, next_oid = all_items(directories, files)
    blocks = {}
    at, level = 22, 1
    while True:
        pointers = []
        for key, block in nodes(level, items):
            blocks[at] = block
            pointers.append((LEAST if not pointers else key, 3, struct.pack("<Q", at)))
            at += 1
        if level >= 2 and len(pointers) == 1:
            break
        items, level = pointers, level + 1
    count = max(64, at)
    free = count - at
    if count > 32736 or level > 8:
        sys.exit("make_files: too many files for one bitmap")
    bits = ((1 << 32736) - 1) ^ (((1 << free) - 1) << at)
    blocks[16] = (b"ReIsEr4".ljust(16, b"\0") + struct.pack("<HH", 0, BLOCK)).ljust(BLOCK, b"\0")
    head = struct.pack("<QQQQQQI", count, free, at - 1, next_oid, objects, 0, 1)
    tail = struct.pack("<HHQII", level, 0, 1, 0, 0)
    blocks[17] = (head + b"ReIsEr40FoRmAt".ljust(16, b"\0") + tail + b"R4PROF01").ljust(BLOCK, b"\0")
    blocks[18] = bytes(4) + bits.to_bytes(4092, "little")
    with open(image, "wb") as out:
        for i in range(count):
            out.write(blocks.get(i, bytes(BLOCK)))


main()
