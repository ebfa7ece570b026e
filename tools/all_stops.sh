#!/bin/sh
# Stops a job behind each of its writes, in each way, and looks at what is left:
#   tools/all_stops.sh IMAGE SCRIPT [TOOL]
#
# Over copies of IMAGE the scripts in SCRIPT are run by one thread with each number of writes that pass, from 0 to as many
# as the whole run makes, with the masks 0, 1, 85, 254 and 255 of the next write, and without a pick, with 1 and with 2.
# Each image that is left is replayed and listed, and all its files are read. That has to be what the first k atoms of the
# whole run made: k is the number of atoms that the stopped run told as committed, or one more. What it told has to be
# the beginning of the whole run's trace, so that what it acknowledged is among them. What the first k atoms made is told
# by runs of their commands alone, in the trace's order, over IMAGE.
#
# A line of progress goes to standard error, and the count of images at the end to standard output. The status is 0 where
# all are so, and 1 at the first that is not. TOOL is the program; without it, it is out/r4_tool, which ./r4 builds.
set -eu

if [ "$#" -lt 2 ]; then
    sed -n '2,3s/^# //p' "$0" >&2
    exit 2
fi
image=$1
script=$2
here=$(CDPATH='' cd -- "$(dirname -- "$0")/.." && pwd)
tool=${3-$here/out/r4_tool}
work=$(mktemp -d)
trap 'rm -rf -- "$work"' EXIT
copy=$work/copy

fail() {
    echo >&2
    echo "all_stops: $1" >&2
    exit 1
}

# Prints the listing of the copy, and behind it each of its files with its bytes.
listing() {
    "$tool" list "$copy" >"$work/listed" || return
    cat -- "$work/listed"
    sed -n 's/^f [^/]*//p' "$work/listed" | while IFS= read -r file; do
        "$tool" list "$copy" "$file" || return
    done
}

# Runs scripts whole over the image, and keeps the listing of what they made.
whole() {
    cp -- "$image" "$copy"
    "$tool" run "$copy" <"$1" >"$work/told" 2>"$work/said" || fail "a run without a stop ends with $?"
    listing >"$2" || fail "a listing ends with $?"
}

# The commands of the first $1 atoms that the whole run committed, in its order, as one script.
first_commands() {
    awk -v most="$1" '
        FNR == NR && $0 == "script" { s++; c = 0; next }
        FNR == NR && /^[^#]/ { line[s, ++c] = $0; next }
        FNR == NR { next }
        $1 == "begin" { t = substr($2, 2); atom[t] = t }
        $1 == "fuse" {
            kept = substr($2, 2); gone = substr($3, 2)
            for (t in atom) if (atom[t] == gone) atom[t] = kept
        }
        $1 == "done" { n++; by[n] = substr($2, 2); what[n] = line[substr($3, 2), substr($4, 2)] }
        $1 == "committed" { place[substr($2, 2)] = ++placed }
        END {
            print "script"
            for (i = 1; i <= n; i++) {
                a = atom[by[i]]
                if (a in place && place[a] <= most && what[i] != "") print what[i]
            }
        }' "$script" "$work/trace"
}

whole "$script" "$work/all"
mv -- "$work/told" "$work/trace"
atoms=$(grep -c '^committed ' "$work/trace" || true)
k=0
while [ "$k" -le "$atoms" ]; do
    first_commands "$k" >"$work/script"
    whole "$work/script" "$work/atoms.$k"
    k=$((k + 1))
done
cmp -s -- "$work/all" "$work/atoms.$atoms" || fail "all atoms do not make what the whole run leaves"

# Stops one run, replays and looks. Its status is in `status` then.
look() {
    cp -- "$image" "$copy"
    status=0
    # shellcheck disable=SC2086
    "$tool" run "$copy" $1 <"$script" >"$work/told" 2>"$work/said" || status=$?
    case $status in
    0 | 6) ;;
    *) fail "run $1 ends with $status" ;;
    esac
    if [ "$status" -eq 6 ]; then
        tail -n 1 "$work/told" | grep -q '^device: clock ' || fail "run $1 tells no clock"
    fi
    grep -v -e '^broken ' -e '^refused t0 ' -e '^device: ' "$work/told" >"$work/part" || true
    lines=$(wc -l <"$work/part")
    head -n "$lines" "$work/trace" | cmp -s - "$work/part" || fail "run $1 has another trace"
    "$tool" replay "$copy" >"$work/replayed" 2>"$work/said" || fail "replay behind run $1 ends with $?"
    listing >"$work/left" || fail "list behind run $1 ends with $?"
    k=$(grep -c '^committed ' "$work/part" || true)
    cmp -s -- "$work/left" "$work/atoms.$k" && return
    [ "$k" -lt "$atoms" ] && cmp -s -- "$work/left" "$work/atoms.$((k + 1))" && return
    fail "run $1 leaves neither the first $k atoms nor one more"
}

writes=0
images=0
ended=no
while [ "$ended" = no ]; do
    for tear in 0 1 85 254 255; do
        for pick in "" "--pick 1" "--pick 2"; do
            look "--stop $writes --tear $tear $pick"
            images=$((images + 1))
            if [ "$status" -eq 0 ]; then
                ended=yes
            fi
        done
    done
    printf '\rall_stops: %s writes, %s images' "$writes" "$images" >&2
    writes=$((writes + 1))
done
echo >&2
echo "all stops from 0 to $((writes - 1)) writes: $images images, each with the first of $atoms atoms"
