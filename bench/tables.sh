#!/bin/sh
# The speed of the tables of a run: sh bench/tables.sh [ROUNDS], after `rt run` in crates/r4_bench has built that program.
# Atoms: 100,000 transactions are begun, capture a node each and are fused, and then twice as many; twice the number is to
# take at most 2.3 times the time. Space: 200,000 charges and as many deferrals on a volume of 1,048,576 blocks, by 1,000
# atoms in turn and by 10,000; ten times the atoms are to take the same time. (What is no call is taken off: the time of the
# same words with none.) The fastest round of each is printed. On four processors that proved crates meanwhile, of 15 rounds:
# 45.6 and 98.2 ms, ratio 2.15; 57.8 and 62.9 ms, ratio 1.09, so 0.15 microseconds a call of the space. No merge of atoms is
# among them: it looks through all blocks that are deferred.
set -eu

rounds=${1:-9}
here=$(CDPATH='' cd -- "$(dirname -- "$0")" && pwd)
tool=$here/../crates/r4_bench/out/r4_bench
. "$here/common.sh"

# Measures these words in each round, into the file of this name.
measure() {
    name=$1
    shift
    round=0
    while [ "$round" -lt "$rounds" ]; do
        nanoseconds "$tool" "$@" >>"$work/$name.times"
        round=$((round + 1))
    done
}

# The least of the nanoseconds in a file of times.
least() {
    sort -n "$work/$1.times" | head -n 1
}

# Prints two times, each without that of a third one, and their ratio.
compare() {
    awk -v one="$(least "$3")" -v other="$(least "$5")" -v none="$(least "$6")" -v name="$1" -v few="$2" -v many="$4" \
        'BEGIN { one -= none; other -= none
            printf "%s: %s %.1f ms, %s %.1f ms, ratio %.2f\n", name, few, one / 1e6, many, other / 1e6, other / one }'
}

measure none atoms 1
measure once atoms 100000
measure twice atoms 200000
compare "begun, captured, fused" 100000 once 200000 twice none
measure still space 1 0
measure few space 1000 200000
measure many space 10000 200000
compare "200000 charges and deferrals" "1000 atoms" few "10000 atoms" many still
