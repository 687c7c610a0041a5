#!/bin/sh
# Times `metaedit` on a WAVE file of 1 GiB, in one run, each beside the plainest program that does the same (bench/plain.c): an edit
# in place beside one that journals and syncs, a rewrite beside a copy with fsync and rename, `md5` beside md5sum; and on 1,000 small
# files a batch of 64 a call beside one call a file. It prints medians, least and most, the ratio of the medians, and the most memory
# that the editor used. Figures of one machine and one disk, and no proof; nothing is promised of time or memory. What the program
# doesn't know yet is skipped with a line.
#   bench/speed.sh [FOLDER]     FOLDER is on the disk to be measured and has 2 GiB free; else a new one beside this clone
# METAEDIT names a built program; else the script `metaedit` builds it. EDITS (101) and COPIES (3) say how often each is timed.
set -eu
. "$(dirname -- "$0")/program.sh"
plain=$folder/plain
cc -O2 -o "$plain" "$top/bench/plain.c"
cd "$folder"

# NAME COMMAND..: runs the command; its seconds and KiB go to the list NAME, what it prints to `printed`
timed() {
    list=$1
    shift
    sync . # what the run before left to be written is not counted here
    "$plain" run "$@" >printed 2>run || wrong "$*: $(cat printed run)"
    tail -n 1 run >>"$list"
}

# LIST: median, least and most of the seconds
seconds() {
    sort -n "$1" | awk '{ s[NR] = $1 } END { printf "%.4f s (%.4f to %.4f)\n", s[int((NR + 1) / 2)], s[1], s[NR] }'
}

median() {
    sort -n "$1" | awk '{ s[NR] = $1 } END { print s[int((NR + 1) / 2)] }'
}

memory() {
    awk '$2 > most { most = $2 } END { print most }' "$@"
}

ratio() { # OURS THEIRS
    echo "$(median "$1") $(median "$2")" | awk '{ printf "%.2f\n", $1 / $2 }'
}

# a RIFF form of type WAVE with a list, room behind it, and 2^30 bytes of sound; sizes are little-endian
{
    printf 'RIFF\074\004\000\100WAVEfmt \020\000\000\000\001\000\001\000\104\254\000\000\210\130\001\000\002\000\020\000'
    printf 'LIST\020\000\000\000INFOINAM\003\000\000\000Hi\000\000JUNK\370\003\000\000'
    head -c 1016 /dev/zero
    printf 'data\000\000\000\100'
} >f.wav
head -c 16777216 /dev/urandom >noise
k=0
while [ $k -lt 64 ]; do
    cat noise >>f.wav
    k=$((k + 1))
done
rm noise
sync f.wav
sound=$(tail -c 1073741824 f.wav | cksum)
essence=1073741824
echo "on $(uname -srm), $(df -T . | awk 'NR == 2 { print $2 }'), load $(cut -d ' ' -f 1-3 /proc/loadavg)"

edit() { # LIST LETTERS WAY: sets a title of so many letters
    timed "$1" "$program" set f.wav "INAM=$(printf "%0$2d" "$k")"
    [ "$(cat printed)" = "done changed $3 essence $essence" ] || wrong "$(cat printed)"
}

k=0
edit first 20 in-place # the list grows into its room
rounds=${EDITS:-101}
while [ $k -lt "$rounds" ]; do
    k=$((k + 1))
    timed journal "$plain" journal f.wav 56 "$(printf '%020d' $((k + 1000)))" # the letters of the title
    edit place 20 in-place
    timed durable "$plain" durable f.wav 56 "$(printf '%020d' $((k + 2000)))"
    timed same "$plain" same f.wav 56 "$(printf '%020d' $((k + 3000)))"
done
echo "edit in place: $(seconds place)"
echo "    plain journal: $(seconds journal), ratio $(ratio place journal)"
echo "    plain journal, its removal synced too: $(seconds durable), ratio $(ratio place durable)"
echo "    the same, file and folder synced first: $(seconds same), ratio $(ratio place same) (goal 1.05)"
echo "    $rounds runs of each in turn"

rounds=${COPIES:-3}
k=0
while [ $k -lt "$rounds" ]; do
    k=$((k + 1))
    timed copy "$plain" copy f.wav f.wav
    edit rewrite $((k * 2000)) rewrite # more letters than there is room
done
echo "rewrite: $(seconds rewrite)"
echo "    plain copy: $(seconds copy), ratio $(ratio rewrite copy) (goal 1.10)"
echo "    $rounds runs of each in turn"
[ "$(tail -c $essence f.wav | cksum)" = "$sound" ] || wrong 'another sound'

known() { # COMMAND: whether the program knows it
    "$program" "$1" f.wav >printed 2>&1 || true
    grep -q UnknownCommand printed && echo "$1: skipped, the program doesn't know it yet"
    ! grep -q UnknownCommand printed
}

if known show; then
    for k in 1 2 3; do
        timed show "$program" show f.wav
    done
    echo "show: $(seconds show)"
fi
if known md5; then
    for k in 1 2 3; do
        timed md5sum md5sum f.wav
        timed md5 "$program" md5 f.wav
    done
    grep -qx "computed $(tail -c $essence f.wav | md5sum | cut -d ' ' -f 1)" printed || wrong "$(cat printed)"
    echo "md5: $(seconds md5)"
    echo "    md5sum: $(seconds md5sum), ratio $(ratio md5 md5sum) (goal 1.15)"
fi
if known batch; then
    # 1,000 files of 4 KiB of sound with room for the title
    mkdir small
    {
        printf 'RIFF\044\024\000\000WAVEfmt \020\000\000\000\001\000\001\000\104\254\000\000\210\130\001\000\002\000\020\000'
        printf 'JUNK\370\003\000\000'
        head -c 1016 /dev/zero
        printf 'data\000\020\000\000'
        head -c 4096 /dev/zero
    } >small.wav
    k=0
    while [ $k -lt 1000 ]; do
        cp small.wav small/$k.wav
        k=$((k + 1))
    done
    cat >each.sh <<'EACH'
for file in small/*.wav; do
    "$1" "$2" "$file" "$3" || exit 1
done
EACH
    cat >journal.sh <<'EACH'
for file in small/*.wav; do
    "$1" journal "$file" 44 "$2" || exit 1
done
EACH
    for k in 1 2 3; do
        timed shelf sh -c 'ls small/*.wav | xargs -n 64 "$1" batch "INAM=$2"' sh "$program" "batch number $k"
        [ "$(grep -c ' done changed in-place ' printed)" = 1000 ] || wrong "$(tail -n 1 printed)"
        timed each sh each.sh "$program" set "INAM=edit number $k"
        timed loop sh journal.sh "$plain" "plain journal $k"
    done
    echo "1,000 small files, 64 a call: $(seconds shelf)"
    echo "    one call a file: $(seconds each), ratio $(ratio shelf each) (goal 0.5)"
    echo "    a shell loop of the plain journal: $(seconds loop), ratio $(ratio shelf loop)"
fi
set --
for list in place rewrite show md5 shelf; do
    [ ! -e $list ] || set -- "$@" $list
done
echo "most memory of the editor: $(memory "$@") KiB (goal under 8192)"
