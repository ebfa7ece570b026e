#!/bin/sh
# Runs one job of 64 scripts on sixteen threads, again and again, and checks each trace:
#   tools/many_threads.sh [ROUNDS] [TOOL]
#
# The job is that of SEED (1 where it is not set) by tools/many_threads_job.py. In each of ROUNDS rounds, 200 where none
# are given, it is run over a fresh volume of 4096 blocks; the volume is listed then, and all its files are read. The
# trace has to be legal, whole, and safe for the first atoms, and the listing has to be what it made (see
# tools/check_trace.py). LANES rounds, 2 where it is not set, go on side by side. TOOL is the program; without it, it is
# out/r4_tool, which ./r4 builds.
#
# A line of progress goes to standard error, and at the end one line to standard output: how many runs there were, how
# many entries were checked, how many different traces there were, how many runs had the trace of one thread (on a loaded
# machine one of the sixteen may do it all), and how many commands were refused. The status is 0 where all are legal. At
# the first that is not it is 1; then its files are kept, and the line says where.
set -eu

if [ "$#" -gt 2 ]; then
    sed -n '2,3s/^# //p' "$0" >&2
    exit 2
fi
rounds=${1-200}
tools=$(CDPATH='' cd -- "$(dirname -- "$0")" && pwd)
tool=${2-$tools/../out/r4_tool}
lanes=${LANES-2}
seconds=600
case $rounds$lanes in
*[!0-9]*)
    sed -n '2,3s/^# //p' "$0" >&2
    exit 2
    ;;
esac
work=$(mktemp -d)
trap 'rm -rf -- "$work"' EXIT
"$tools/many_threads_job.py" "${SEED-1}" >"$work/job"
: >"$work/rounds"

# Keeps the files of a lane, and tells why; the other lanes stop before their next round.
fail() {
    kept=$(mktemp -d)
    cp -- "$work/job" "$1"/[a-z]* "$kept" || true
    echo "many_threads: $2; job, trace and listing are in $kept" >>"$work/failed"
    exit 1
}

# Prints the listing of an image, and behind it that of each of its files.
listing() {
    "$tool" list "$1" / >"$2" || return
    cat -- "$2"
    sed -n 's/^f [^/]*//p' "$2" | while IFS= read -r file; do
        "$tool" list "$1" "$file" || return
    done
}

# Runs the job in a folder, over a fresh volume, by so many threads.
run_job() {
    truncate -s 16M "$1/image"
    "$tool" mkfs "$1/image" >"$1/said" || fail "$1" "mkfs ends with $?"
    timeout "$seconds" "$tool" run "$1/image" --threads "$2" <"$work/job" >"$1/trace" 2>"$1/said" \
        || fail "$1" "run ends with $?"
}

# One round in the folder of a lane.
round() {
    rm -f -- "$1"/*
    run_job "$1" 16
    listing "$1/image" "$1/root" >"$1/listing" || fail "$1" "list ends with $?"
    "$tools/check_trace.py" --whole --first-atoms "$work/job" "$1/trace" "$1/listing" >"$1/fault" 2>&1 \
        || fail "$1" "$(head -n 1 "$1/fault")"
    refused=$(grep -c '^refused ' "$1/trace" || true)
    echo "$(wc -l <"$1/trace") $refused $(sha256sum <"$1/trace")" >>"$work/rounds"
    printf '\rmany_threads: %s of %s' "$(wc -l <"$work/rounds")" "$rounds" >&2
}

# The rounds of one lane: every one whose number, divided by that of lanes, leaves its own.
lane() {
    mkdir -- "$work/$1"
    i=$1
    while [ "$i" -lt "$rounds" ] && [ ! -e "$work/failed" ]; do
        round "$work/$1"
        i=$((i + lanes))
    done
}

mkdir -- "$work/one"
(run_job "$work/one" 1) || {
    cat -- "$work/failed" >&2
    exit 1
}
one=$(sha256sum <"$work/one/trace" | cut -d ' ' -f 1)

running=
n=0
while [ "$n" -lt "$lanes" ]; do
    lane "$n" &
    running="$running $!"
    n=$((n + 1))
done
for id in $running; do
    wait "$id" || true
done
echo >&2
if [ -e "$work/failed" ]; then
    cat -- "$work/failed" >&2
    exit 1
fi
[ "$(wc -l <"$work/rounds")" -eq "$rounds" ] || {
    echo "many_threads: a lane ended early" >&2
    exit 1
}
awk -v one="$one" '
    { entries += $1; refused += $2; alone += $3 == one; if (!($3 in seen)) { seen[$3]; different++ } }
    END {
        printf "%d runs on sixteen threads: %d entries checked, all legal, %d different traces, ", NR, entries, different
        printf "%d runs with that of one thread, %d refusals\n", alone, refused
    }' "$work/rounds"
