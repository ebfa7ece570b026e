#!/bin/sh
# The speed of a listing: sh bench/list.sh [ROUNDS], after ./r4 has built the program; python3 makes the image.
# A volume of 20 directories with 100 files each is listed, and `ls -lR` lists as many files in a directory of the file
# system. Both read what the page cache holds. The fastest round of each is printed.
# Calls of the system in one such listing of 58,479 bytes, by `strace -c`, all in all: 151, of which 111 are pread64 (109
# blocks, and two of the program's start) and one is write, at most one for each 64 KiB. Before standard output was
# gathered there were 2,279, of which 2,021 were write. The ratio was 0.34 then, and 0.22 since, each measured once.
set -eu

rounds=${1:-15}
here=$(CDPATH='' cd -- "$(dirname -- "$0")" && pwd)
. "$here/common.sh"

# The same files in a directory.
make_files() {
    directory=0
    while [ "$directory" -lt 20 ]; do
        name=$(printf '%s/files/d%03d' "$work" "$directory")
        mkdir -p -- "$name"
        file=0
        while [ "$file" -lt 100 ]; do
            file_name=$(printf 'f%05d' "$file")
            printf 'the bytes of %s\n' "$file_name" >"$name/$file_name"
            file=$((file + 1))
        done
        directory=$((directory + 1))
    done
}

python3 "$here/make_files.py" "$work/files.img" 20 100
make_files
round=0
while [ "$round" -lt "$rounds" ]; do
    nanoseconds "$tool" list "$work/files.img" >>"$work/list.times"
    [ "$(wc -l <"$work/printed")" -eq 2021 ]
    nanoseconds ls -lR "$work/files" >>"$work/ls.times"
    round=$((round + 1))
done
fastest "list 2021 objects" "ls -lR" "$work/list.times" "$work/ls.times"
