#!/bin/sh
# Shows what `metaedit` does where the disk has no room: the system refuses each write past a limit (`ulimit -f`, with its
# signal ignored), the editor answers `refused 9 DepotFault 1` and leaves no work file, and after `recover` the file is the old
# one; where the journal was whole before the room ended, `recover` ends the edit once there is room. A test of four cases and
# no proof; it ends with status 1 where an answer or a file is another.
#   bench/full.sh
# METAEDIT names a built program; else the script `metaedit` builds it.
set -eu
. "$(dirname -- "$0")/program.sh"
file=$folder/f.wav

# ROOM COMMAND [ITEM]: a run in which no file may pass ROOM blocks (of 512 or 1,024 bytes, as the shell counts them)
answer() {
    status=0
    room=$1
    command=$2
    shift 2
    printed=$( (trap '' XFSZ; ulimit -f "$room"; exec "$program" "$command" "$file" "$@") 2>&1 ) || status=$?
    echo "    $command, room $room: $printed, status $status"
}

expect() {
    [ "$printed" = "$1" ] && [ "$status" = "$2" ] || wrong "expected: $1, status $2"
}

no_work() {
    [ ! -e "$file.met" ] || wrong 'a work file is left'
}

same() {
    cmp -s "$file" "$1" || wrong "the file isn't $1"
    [ ! -e "$file.mej" ] && [ ! -e "$file.met" ] || wrong 'a journal or a work file is left'
}

# a WAVE file with 2^21 bytes of sound; sizes are little-endian
printf 'RIFF\044\000\040\000WAVEfmt \020\000\000\000\001\000\001\000\104\254\000\000\210\130\001\000\002\000\020\000data\000\000\040\000' >"$folder/old"
head -c 2097152 /dev/urandom >>"$folder/old"
cp "$folder/old" "$file"
answer unlimited set INAM=Hello
expect 'done changed in-place essence 2097152' 0
cp "$file" "$folder/new"

echo 'a rewrite, room for a part of the new file'
cp "$folder/old" "$file"
answer 1024 set Description=Hello
expect 'refused 9 DepotFault 1' 9
no_work
answer unlimited recover
expect 'recovered nothing' 0
same "$folder/old"

echo 'a rewrite, no room at all'
answer 0 set Description=Hello
expect 'refused 9 DepotFault 1' 9
no_work
answer unlimited recover
expect 'recovered nothing' 0
same "$folder/old"

echo 'an edit in place, no room for the journal'
answer 0 set INAM=Hello
expect 'refused 9 DepotFault 1' 9
no_work
answer unlimited recover
expect 'recovered nothing' 0
same "$folder/old"

echo 'an edit in place, room for the journal and none for the longer file'
answer 1 set INAM=Hello
expect 'refused 9 DepotFault 1' 9
[ -e "$file.mej" ] || wrong 'there is no journal'
answer 1 recover
expect 'refused 9 DepotFault 1' 9
answer unlimited recover
expect 'recovered redone' 0
same "$folder/new"
echo 'each answer is as stated, and each file the old one, or the new one where its journal was whole'
