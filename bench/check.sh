#!/bin/sh
# The speed of a check: sh bench/check.sh [ROUNDS], after ./r4 has built the program; python3 makes the image, and mke2fs
# and e2fsck, of e2fsprogs, make and check the other one.
# A volume of 200 directories with 100 files each is checked, and `e2fsck -fn` checks an ext4 file system that has the
# same files. Both read what the page cache holds. The fastest round of each is printed.
# Measured on 2026-12-01, the program as it was proved, on four processors that proved other crates beside (a load of 6.5),
# the fastest of 31 rounds: 13.3 ms, and 18.3 ms of e2fsck 1.47.0, ratio 0.73. Instructions, by valgrind's callgrind, which
# do not follow the load: 95 million, and 164 million. Before, the ids of objects were looked up in maps, and each part was
# added up by a walk of its own over what was found: 512 million by a build without proofs, ratio 3.2 and 3.4 in two runs.
set -eu

rounds=${1:-9}
here=$(CDPATH='' cd -- "$(dirname -- "$0")" && pwd)
. "$here/common.sh"

# The same files in a directory.
make_files() {
    directory=0
    while [ "$directory" -lt 200 ]; do
        name=$(printf '%s/files/d%03d' "$work" "$directory")
        mkdir -p -- "$name"
        file=0
        while [ "$file" -lt 100 ]; do
            file_name=$(printf 'f%05d' "$file")
            printf 'the bytes of %s\n' "$file_name" >"$name/$file_name"
            file=$((file + 1))
        done
        directory=$((directory + 1))
    done
}

python3 "$here/make_files.py" "$work/files.img" 200 100
make_files
mke2fs -q -t ext4 -d "$work/files" "$work/files.ext4" 256M
round=0
while [ "$round" -lt "$rounds" ]; do
    nanoseconds "$tool" check "$work/files.img" >>"$work/check.times"
    [ "$(cat "$work/printed")" = "objects 20201 faults 0" ]
    nanoseconds e2fsck -fn "$work/files.ext4" >>"$work/e2fsck.times" 2>"$work/said"
    round=$((round + 1))
done
fastest "check of 20201 objects" "e2fsck -fn" "$work/check.times" "$work/e2fsck.times"
