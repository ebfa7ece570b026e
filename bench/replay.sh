#!/bin/sh
# The speed of a replay: sh bench/replay.sh [ROUNDS], after ./r4 has built the program.
# A transaction of 254 pairs is put in place, and dd copies as many blocks with as many syncs. Both work on fresh copies
# of one image, which the page cache holds. The fastest round of each is printed.
# Calls of the system in one such replay, by `strace -c`, all in all: 553, of which 260 are pread64 (258 blocks, and two of
# the program's start), 255 pwrite64 and 2 fdatasync, so one for each block that is read or written. Before reads and
# writes had a position there were 1,068, of which 515 were lseek.
set -eu

rounds=${1:-15}
here=$(CDPATH='' cd -- "$(dirname -- "$0")" && pwd)
. "$here/common.sh"

# A fresh copy of the image, of which nothing is left to be written.
fresh() {
    cp -- "$work/full.img" "$work/$1"
    sync "$work/$1"
    cat -- "$work/$1" >"$work/read"
}

# What `replay` does: it reads the 254 copies and writes them to their places, syncs, writes the footer, and syncs.
copies() {
    dd if="$work/dd.img" of="$work/dd.img" bs=4096 skip=600 seek=300 count=254 conv=notrunc,fsync 2>/dev/null
    dd if="$work/dd.img" of="$work/dd.img" bs=4096 skip=20 seek=20 count=1 conv=notrunc,fsync 2>/dev/null
}

sh "$here/../demo/make_image.sh" "$work/full.img" full
round=0
while [ "$round" -lt "$rounds" ]; do
    fresh replay.img
    nanoseconds "$tool" replay "$work/replay.img" >>"$work/replay.times"
    grep -qx "replayed 1" "$work/printed"
    fresh dd.img
    nanoseconds copies >>"$work/dd.times"
    round=$((round + 1))
done
fastest "replay 254 pairs" "dd" "$work/replay.times" "$work/dd.times"
