# What the scripts of bench/ share; each reads it with `. "$here/common.sh"`, where $here is its directory, and $tool the
# program, where it is another one than r4's.
tool=${tool:-$here/../out/r4_tool}
work=$(mktemp -d "$here/work.XXXXXX")
trap 'rm -rf -- "$work"' EXIT

if [ ! -x "$tool" ]; then
    echo "bench: there is no $tool: build it first, as the head of this script says" >&2
    exit 1
fi

# Runs a command, and prints its nanoseconds.
nanoseconds() {
    before=$(date +%s%N)
    "$@" >"$work/printed"
    after=$(date +%s%N)
    echo "$((after - before))"
}

# Prints the fastest round of each of two files of nanoseconds, under these names, and their ratio.
fastest() {
    awk -v one="$1" -v other="$2" 'FNR == 1 { file++ } FNR == 1 || $1 < least[file] { least[file] = $1 }
        END { printf "%s: %.1f ms, %s: %.1f ms, ratio %.2f\n", one, least[1] / 1e6, other, least[2] / 1e6, least[1] / least[2] }' \
        "$3" "$4"
}
