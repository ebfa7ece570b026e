#!/bin/sh
# Refuses each allocation of a job in turn, and looks at what is left:
#   tools/refuse_memory.sh IMAGE SCRIPT [TOOL]
#
# Over copies of IMAGE the scripts in SCRIPT are run by one thread; in the first run the first allocation of memory is
# refused, in the second the second one, and so on up to the last one that the whole run makes. Each run has to end with
# status 9, or with 0, and then a command was refused with `memory`, or the trace is that of the whole run. The image that
# is left is replayed and listed, and all its files are read: that has to be what those atoms made that the trace tells as
# committed. What they made is told by a run of their commands alone, in the trace's order, over IMAGE. Behind status 9,
# where the trace may be printed in part, more of the whole run's atoms may be there.
#
# Then the same of the run on a device that stops in the middle of its writes and of which sectors go back (--stop,
# --pick), which has to end with status 6 or 9, and where one atom more than told may be there, since it was sealed.
#
# Last the same of a replay, over the image that such a stop leaves: it has to end with 0 or 9, and a second one, of which
# nothing is refused, has to leave what it leaves alone.
#
# The program asks for memory by malloc and realloc of the C library; a library that stands before that one (LD_PRELOAD)
# refuses one call. It is made by `cc`, the C compiler.
#
# A line of progress goes to standard error, and the count of runs at the end to standard output. The status is 0 where
# all are so, and 1 at the first that is not. TOOL is the program; without it, it is out/r4_tool, which ./r4 builds.
set -eu

if [ "$#" -lt 2 ]; then
    sed -n '2,3s/^# //p' "$0" >&2
    exit 2
fi
image=$1
script=$2
here=$(CDPATH='' cd -- "$(dirname -- "$0")/.." && pwd)
tool=${3-$here/out/r4_tool}
work=$(mktemp -d)
trap 'rm -rf -- "$work"' EXIT
copy=$work/copy

fail() {
    echo >&2
    echo "refuse_memory: $1" >&2
    exit 1
}

# The call with the number in REFUSE_CALL finds no memory; then there is the file that REFUSE_TOLD names.
cat >"$work/refusing.c" <<'END'
#include <errno.h>
#include <fcntl.h>
#include <stdlib.h>
#include <unistd.h>

extern void *__libc_malloc(size_t size);
extern void *__libc_realloc(void *old, size_t size);

static long calls;

static int is_refused(void)
{
    const char *at = getenv("REFUSE_CALL"), *told = getenv("REFUSE_TOLD");
    if (__atomic_add_fetch(&calls, 1, __ATOMIC_SEQ_CST) != (at ? atol(at) : 0))
        return 0;
    if (told)
        close(open(told, O_CREAT | O_WRONLY, 0600));
    errno = ENOMEM;
    return 1;
}

void *malloc(size_t size)
{
    return is_refused() ? NULL : __libc_malloc(size);
}

void *realloc(void *old, size_t size)
{
    return is_refused() ? NULL : __libc_realloc(old, size);
}
END
cc -O1 -shared -fPIC -o "$work/refusing.so" "$work/refusing.c" || fail "there is no C compiler"

# Calls the program, and refuses it the allocation $1. Its status is in `status` then, and whether there was one in `was`.
refusing() {
    number=$1
    shift
    rm -f -- "$work/refused"
    status=0
    REFUSE_CALL=$number REFUSE_TOLD=$work/refused LD_PRELOAD=$work/refusing.so \
        "$tool" "$@" >"$work/told" 2>"$work/said" || status=$?
    was=no
    if [ -e "$work/refused" ]; then
        was=yes
    fi
}

# Prints the listing of the copy, and behind it each of its files with its bytes.
listing() {
    "$tool" list "$copy" >"$work/listed" || return
    cat -- "$work/listed"
    sed -n 's/^f [^/]*//p' "$work/listed" | while IFS= read -r file; do
        "$tool" list "$copy" "$file" || return
    done
}

# Runs scripts whole over the image, and keeps the listing of what they made.
whole() {
    cp -- "$image" "$copy"
    "$tool" run "$copy" <"$1" >"$work/made" 2>"$work/said" || fail "a run of which nothing is refused ends with $?"
    listing >"$2" || fail "a listing ends with $?"
}

# The commands of the first $2 atoms that the trace $1 tells as sealed, in its order, as one script.
first_commands() {
    awk -v most="$2" '
        FNR == NR && $0 == "script" { s++; c = 0; next }
        FNR == NR && /^[^#]/ { line[s, ++c] = $0; next }
        FNR == NR { next }
        $1 == "begin" { t = substr($2, 2); atom[t] = t }
        $1 == "fuse" {
            kept = substr($2, 2); gone = substr($3, 2)
            for (t in atom) if (atom[t] == gone) atom[t] = kept
        }
        $1 == "done" { n++; by[n] = substr($2, 2); what[n] = line[substr($3, 2), substr($4, 2)] }
        $1 == "sealed" { place[substr($2, 2)] = ++placed }
        END {
            print "script"
            for (i = 1; i <= n; i++) {
                a = atom[by[i]]
                if (a in place && place[a] <= most && what[i] != "") print what[i]
            }
        }' "$script" "$1"
}

# Whether what is left is what the first $2 atoms of the trace $1 made. What scripts make is kept by their sums.
is_left() {
    first_commands "$1" "$2" >"$work/script"
    sum=$(cksum <"$work/script" | tr ' ' .)
    [ -e "$work/by.$sum" ] || whole "$work/script" "$work/by.$sum"
    cmp -s -- "$work/left" "$work/by.$sum"
}

count() {
    grep -c "^$1 " "$2" || true
}

# Whether the trace is the beginning of the whole run's, and the image has its atoms that were told, or more.
is_part() {
    head -n "$(wc -l <"$work/part")" "$work/trace" | cmp -s - "$work/part" || return
    k=$(count committed "$work/part")
    while [ "$k" -le "$atoms" ]; do
        is_left "$work/trace" "$k" && return
        k=$((k + 1))
    done
    return 1
}

# Looks at the run $1, which may end with the status $2 or with 9, and at its image.
look() {
    "$tool" replay "$copy" >"$work/replayed" 2>"$work/said" || fail "replay behind $1 ends with $?"
    listing >"$work/left" || fail "list behind $1 ends with $?"
    grep -v -e '^broken ' -e '^refused t0 ' -e '^device: ' -e '^memory$' "$work/told" >"$work/part" || true
    told=$(count committed "$work/part")
    sealed=$(count sealed "$work/part")
    case $status in
    9)
        ends=$((ends + 1))
        is_part && return
        ;;
    "$2")
        if grep -q '^refused .* memory$' "$work/told"; then
            replies=$((replies + 1))
        else
            absorbed=$((absorbed + 1))
            head -n "$(wc -l <"$work/part")" "$work/trace" | cmp -s - "$work/part" || fail "$1 has another trace"
        fi
        ;;
    *) fail "$1 ends with $status" ;;
    esac
    is_left "$work/told" "$told" && return
    [ "$status" -ne 0 ] && [ "$sealed" -gt "$told" ] && is_left "$work/told" "$sealed" && return
    fail "$1 leaves neither the atoms that were told nor one more"
}

# Refuses each allocation of a run with the options $2, which may end with the status $1 or with 9.
all_runs() {
    number=1
    while :; do
        cp -- "$image" "$copy"
        # shellcheck disable=SC2086
        refusing "$number" run "$copy" $2 <"$script"
        if [ "$was" = no ]; then
            break
        fi
        look "run $2 refusing $number" "$1"
        printf '\rrefuse_memory: run %s: %s allocations' "$2" "$number" >&2
        number=$((number + 1))
    done
    echo >&2
    runs=$((runs + number - 1))
}

whole "$script" "$work/left"
cp -- "$work/made" "$work/trace"
atoms=$(count sealed "$work/trace")
is_left "$work/trace" "$atoms" || fail "all atoms do not make what the whole run leaves"
runs=0
ends=0
replies=0
absorbed=0
all_runs 0 ""

# How many writes the run makes.
stop=0
while :; do
    cp -- "$image" "$copy"
    status=0
    "$tool" run "$copy" --stop "$stop" <"$script" >"$work/told" 2>"$work/said" || status=$?
    [ "$status" -eq 6 ] || break
    stop=$((stop + 1))
done
writes=$stop
all_runs 6 "--stop $((writes / 2)) --pick 1"

# The first stop from the middle on that leaves a log which a replay puts in its place.
stop=$((writes / 2))
while [ "$stop" -lt "$writes" ]; do
    cp -- "$image" "$work/stopped"
    "$tool" run "$work/stopped" --stop "$stop" <"$script" >"$work/told" 2>"$work/said" || true
    cp -- "$work/stopped" "$copy"
    "$tool" replay "$copy" >"$work/replayed" 2>"$work/said" || fail "a replay ends with $?"
    cmp -s -- "$work/stopped" "$copy" || break
    stop=$((stop + 1))
done
cp -- "$copy" "$work/settled"
number=1
while :; do
    cp -- "$work/stopped" "$copy"
    refusing "$number" replay "$copy"
    if [ "$was" = no ]; then
        break
    fi
    case $status in
    0 | 9) ;;
    *) fail "a replay refusing $number ends with $status" ;;
    esac
    "$tool" replay "$copy" >"$work/replayed" 2>"$work/said" || fail "a second replay ends with $?"
    cmp -s -- "$work/settled" "$copy" || fail "a replay refusing $number leaves another image"
    printf '\rrefuse_memory: replay: %s allocations' "$number" >&2
    number=$((number + 1))
done
echo >&2
echo "each allocation refused in a run of its own: $runs of runs ($ends ended with 9, $replies with a reply memory," \
    "$absorbed with the trace of the whole run), $((number - 1)) of a replay; whole transactions in each image"
