#!/bin/sh
# Makes an image whose log has a transaction:
#   make_image.sh FILE log     1,024 blocks whose log has one committed transaction that is not yet put in place:
#                              blocks 300, 301 and 302 get what stands in blocks 600, 601 and 602
#   make_image.sh FILE full    the same with 254 blocks, as many as one record holds
set -eu
image=$1

zeros() {
    dd if=/dev/zero of="$image" bs=4096 count="$1" 2>/dev/null
}

# Puts what comes in at the start of a block.
block() {
    dd of="$image" bs=4096 seek="$1" conv=notrunc 2>/dev/null
}

# A number as so many bytes, the lowest first.
number() {
    rest=$1
    left=$2
    while [ "$left" -gt 0 ]; do
        # shellcheck disable=SC2059
        printf "\\$(printf '%03o' "$((rest % 256))")"
        rest=$((rest / 256))
        left=$((left - 1))
    done
}

# The transaction's head: magic, id, total, padding, the head before it, the first record, free blocks, files, next id.
head_block() {
    printf 'TxMagic4'
    number 1 8
    number 2 4
    number 0 4
    number 0 8
    number 901 8
    number 700 8
    number 3 8
    number 65536 8
}

# Its one record, of so many pairs: magic, id, total, serial, the next block (the head again), then the pairs.
record_block() {
    printf 'LogMagc4'
    number 1 8
    number 2 4
    number 1 4
    number 900 8
    pair=0
    while [ "$pair" -lt "$1" ]; do
        number "$((300 + pair))" 8
        number "$((600 + pair))" 8
        pair=$((pair + 1))
    done
}

# The new contents, one after the other.
contents() {
    pair=0
    while [ "$pair" -lt "$1" ]; do
        printf '%-4095s\n' "the new content of block $((300 + pair))"
        pair=$((pair + 1))
    done
}

# An image whose log has a transaction of so many pairs.
logged() {
    zeros 1024
    number 900 8 | block 19
    head_block | block 900
    record_block "$1" | block 901
    contents "$1" | block 600
}

case $2 in
log)
    logged 3
    ;;
full)
    logged 254
    ;;
*)
    echo "make_image.sh: $2 is neither log nor full" >&2
    exit 1
    ;;
esac
