#!/bin/sh
# The demo: run.sh TOOL makes images, lets the program replay them and looks at what it leaves.
set -eu

tool=$1
here=$(CDPATH='' cd -- "$(dirname -- "$0")" && pwd)
work=$(mktemp -d)
trap 'rm -rf -- "$work"' EXIT

# Does a command on an image, and looks whether the program prints this line and ends with status 0.
does() {
    echo "\$ ./r4 $1 $2"
    status=0
    printed=$("$tool" "$1" "$work/$2") || status=$?
    echo "$printed"
    if [ "$status" -ne 0 ] || [ "$printed" != "$3" ]; then
        echo "The demo failed: status $status, and '$3' was wanted." >&2
        exit 1
    fi
}

# Runs the script over a copy of the empty volume, on a device that stops behind so many writes.
cuts() {
    cp -- "$work/empty.img" "$work/cut.img"
    echo "\$ ./r4 run cut.img --stop $1 <script"
    status=0
    "$tool" run "$work/cut.img" --stop "$1" <"$work/script" 2>/dev/null || status=$?
    if [ "$status" -ne 6 ]; then
        echo "The demo failed: status $status, and 6 was wanted." >&2
        exit 1
    fi
}

# Copies so many blocks from a block on, for a look at them.
blocks() {
    dd if="$work/$1" of="$work/part" bs=4096 skip="$2" count="$3" 2>/dev/null
}

# Looks whether two files hold the same; otherwise the demo failed, as the last words say.
same() {
    if ! cmp -- "$1" "$2" >&2; then
        echo "The demo failed: $3." >&2
        exit 1
    fi
}

echo "A file of 64 blocks is made an empty volume: a root directory, and 40 blocks to fill."
dd if=/dev/zero of="$work/volume.img" bs=4096 count=64 2>/dev/null
does mkfs volume.img "made 64 blocks 40 free"
cp -- "$work/volume.img" "$work/empty.img"
blocks volume.img 16 1
echo "Block 16, the master superblock, begins with: $(head -c 8 "$work/part")"
echo
echo "Its listing is the root directory alone."
does list volume.img "d 0755 2 0 0 0 /"
echo
echo "Its log holds nothing, and nothing is written."
cp -- "$work/volume.img" "$work/before.img"
does replay volume.img "replayed 0"
same "$work/before.img" "$work/volume.img" "the image is not what it was"

echo
echo "A script makes a directory and a file in it, and commits: the trace tells each command with its reply."
cat >"$work/script" <<'END'
script
mkdir /etc
create /etc/hosts
write /etc/hosts 0 127.0.0.1 localhost
commit
END
cat >"$work/wanted" <<'END'
begin t1 s1
done t1 s1 c1 ok
ended t1
begin t2 s1
fuse a1 a2 n23
done t2 s1 c2 ok
ended t2
begin t3 s1
fuse a1 a3 n23
done t3 s1 c3 ok
ended t3
sealed a1
committed a1
acked s1 t3
END
echo "\$ ./r4 run volume.img <script"
"$tool" run "$work/volume.img" <"$work/script" | tee "$work/part"
same "$work/wanted" "$work/part" "the trace is another one"
does list volume.img "d 0755 3 0 0 1 /
d 0755 2 0 0 1 /etc
f 0644 1 0 0 19 /etc/hosts"

echo
echo "The power is cut in the middle of a commit. Of 10 writes 5 pass: the transaction lies in the log, and the"
echo "journal header does not name it yet. Nothing was acknowledged, and the file is not there."
cat >"$work/script" <<'END'
script
create /letter
commit
END
cuts 5
does replay cut.img "replayed 0"
does list cut.img "d 0755 2 0 0 0 /"
echo
echo "One write more, and the header names it: its blocks are not in their place yet, and replay puts them there."
cuts 6
does replay cut.img "replayed 1"
does list cut.img "d 0755 2 0 0 1 /
f 0644 1 0 0 0 /letter"

echo
echo "An image of 1,024 blocks: its log has one committed transaction, whose three blocks are put in place."
sh "$here/make_image.sh" "$work/log.img" log
does replay log.img "replayed 1"
blocks log.img 600 3
mv -- "$work/part" "$work/wanted"
blocks log.img 300 3
same "$work/wanted" "$work/part" "blocks 300, 301 and 302 do not hold what blocks 600, 601 and 602 hold"
echo "Block 300 now holds: $(head -n 1 "$work/part" | sed 's/ *$//')"
blocks log.img 20 1
echo "Block 20, the journal footer, names the transaction's head, its free blocks, its files and its next id:"
od -A n -t u8 -w32 -N 32 "$work/part"
echo
echo "A second time there is nothing to do."
cp -- "$work/log.img" "$work/before.img"
does replay log.img "replayed 0"
same "$work/before.img" "$work/log.img" "the image is not what it was"
echo
echo "The demo went well."
