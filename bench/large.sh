#!/bin/sh
# Shows that an edit in place of an RF64 file of 5 GB (sparse, so it takes no room on the disk) reads little of it: it sets a title,
# counts the bytes that the program reads (from the file by strace where that is installed, else by /proc/PID/io less those of a
# run without words, which loads the program), and compares the head of the file. A test of one file and no proof; it ends with
# status 1 where the answer or the head is another, or more than 1,048,576 bytes are read.
#   bench/large.sh [FOLDER]     FOLDER is on a disk that knows sparse files; else a new one beside this clone
# METAEDIT names a built program; else the script `metaedit` builds it.
set -eu
. "$(dirname -- "$0")/program.sh"
file=$folder/f.wav

# The parts of the head; sizes are little-endian. ds64 has riffSize 5,000,001,120, dataSize 5,000,000,000, sampleCount
# 2,500,000,000 and no rows.
start() {
    printf 'RF64\377\377\377\377WAVEds64\034\000\000\000'
    printf '\140\366\005\052\001\000\000\000\000\362\005\052\001\000\000\000\000\371\002\225\000\000\000\000\000\000\000\000'
    printf 'fmt \020\000\000\000\001\000\001\000\104\254\000\000\210\130\001\000\002\000\020\000'
}
{
    start
    printf 'LIST\020\000\000\000INFOINAM\003\000\000\000Hi\000\000JUNK\370\003\000\000'
    head -c 1016 /dev/zero
    printf 'data\377\377\377\377'
} >"$file"
truncate -s 5000001128 "$file"
{
    start
    printf 'LIST\022\000\000\000INFOINAM\006\000\000\000Hello\000JUNK\366\003\000\000'
    head -c 1014 /dev/zero
    printf 'data\377\377\377\377'
} >"$folder/head"

# COMMAND..: how many bytes that command has read, its own loading included
read_by() {
    sh -c 'from=$(awk "/^rchar/ { print \$2 }" "/proc/$$/io"); "$@" >&2; awk -v from="$from" "/^rchar/ { print \$2 - from }" "/proc/$$/io"' sh "$@"
}

if command -v strace >/dev/null; then
    printed=$(strace -f -y -o "$folder/calls" -e trace=read,readv,pread64,preadv,preadv2,mmap,sendfile,copy_file_range,splice \
        "$program" set "$file" INAM=Hello 2>&1) || wrong "$printed"
    grep -F "<$file" "$folder/calls" >"$folder/of_file" || true
    grep -Ev '(read|readv|pread64|preadv|preadv2)\(' "$folder/of_file" && wrong 'the file is read by a call that is not counted'
    calls=$(wc -l <"$folder/of_file")
    bytes=$(awk '{ total += $NF } END { print total + 0 }' "$folder/of_file")
    [ "$calls" -gt 0 ] || wrong 'strace tells no call'
    told="by strace, in $calls calls"
else
    loading=$(read_by "$program" 2>"$folder/none")
    all=$(read_by "$program" set "$file" INAM=Hello 2>"$folder/printed") || wrong "$(cat "$folder/printed")"
    printed=$(cat "$folder/printed")
    bytes=$((all - loading))
    told="by /proc, less $loading of the program's loading"
fi
echo "$printed"
[ "$printed" = 'done changed in-place essence 5000000000' ] || wrong 'another answer'
[ "$(wc -c <"$file")" -eq 5000001128 ] || wrong 'another length'
head -c 1128 "$file" | cmp -s - "$folder/head" || wrong 'another head'
[ ! -e "$file.mej" ] && [ ! -e "$file.met" ] || wrong 'a journal or a work file is left'
echo "of 5,000,001,128 bytes the program has read $bytes ($told); the file takes $(du -k "$file" | cut -f 1) KiB of the disk"
[ "$bytes" -le 1048576 ] || wrong 'more than 1,048,576 bytes'
