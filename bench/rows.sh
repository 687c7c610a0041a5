#!/bin/sh
# Times the making anew of a table of a million rows, each with its place moved: 4 MB of a `stco`, 16 MB of an `idx1`, each beside a
# plain copy of as many bytes (bench/plain.c: blocks of 64 KiB, fsync, rename, fsync of the folder) and beside a swap that copies
# them unmoved. The swap holds one page of 4,096 rows; its calls, its plan and its proofs are those of the editor, over a real
# folder (crates/bench_tables). It prints medians, least and most, the ratio of the medians, and the most memory that the swap used;
# and it compares each table that was made with the one that is wanted. Figures of one machine and one disk, and no proof.
#   bench/rows.sh [FOLDER]     FOLDER is on the disk to be measured and has 64 MB free; else a new one beside this clone
# ROUNDS (21) says how often each is timed.
set -eu
top=$(CDPATH='' cd -- "$(dirname -- "$0")/.." && pwd)
crate=$top/crates/bench_tables
if [ ! -x "$crate/out/bench_tables" ]; then
    (cd "$crate" && rt run -- </dev/null >&2) || true # without words it refuses and touches no file
fi
METAEDIT=$crate/out/bench_tables
. "$top/bench/program.sh"
plain=$folder/plain
cc -O2 -o "$plain" "$top/bench/plain.c"
cd "$folder"
rounds=${ROUNDS:-21}
rows=1000000

# NAME COMMAND..: runs the command; its seconds and KiB go to the list NAME
timed() {
    list=$1
    shift
    sync . # what the run before left to be written is not counted here
    "$plain" run "$@" >printed 2>run || wrong "$*: $(cat printed run)"
    tail -n 1 run >>"$list"
}

# LIST: median, least and most of the seconds
seconds() {
    sort -n "$1" | awk '{ s[NR] = $1 } END { printf "%.4f s (%.4f to %.4f)\n", s[int((NR + 1) / 2)], s[1], s[NR] }'
}

median() {
    sort -n "$1" | awk '{ s[NR] = $1 } END { print s[int((NR + 1) / 2)] }'
}

ratio() { # OURS THEIRS
    echo "$(median "$1") $(median "$2")" | awk '{ printf "%.2f\n", $1 / $2 }'
}

echo "on $(uname -srm), $(df -T . | awk 'NR == 2 { print $2 }'), load $(cut -d ' ' -f 1-3 /proc/loadavg)"
for form in chunks index; do
    "$plain" table table "$form" $rows 0
    k=0
    while [ $k -lt "$rounds" ]; do
        k=$((k + 1))
        timed $form.plain "$plain" copy table table
        timed $form "$program" $form table
        timed $form.copy "$program" copy table
    done
    "$plain" table want "$form" $rows $((k * 4096))
    cmp table want || wrong "$form: another table"
    echo "$form: $(wc -c <table) bytes in $(seconds $form)"
    echo "    plain copy: $(seconds $form.plain), ratio $(ratio $form $form.plain) (goal at most 1.3)"
    echo "    a swap that copies: $(seconds $form.copy), ratio $(ratio $form $form.copy)"
    echo "    most memory of the swap: $(sort -n -k 2 $form | tail -n 1 | cut -d ' ' -f 2) KiB"
done
