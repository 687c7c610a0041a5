#!/bin/sh
# Shows how often a plain WAVE file of 48 bytes is read: it counts by strace the calls to the system between settling, which ends
# with the look for a work file, and the report. A test of one file and no proof; it ends with status 1 where there are more than
# eight, or where the report is another. Without strace it is skipped with a line.
#   bench/calls.sh
# METAEDIT names a built program; else the script `metaedit` builds it.
set -eu
. "$(dirname -- "$0")/program.sh"
command -v strace >/dev/null || {
    echo 'skipped: strace is not installed'
    exit 0
}
file=$folder/f.wav
printf 'RIFF\050\000\000\000WAVEfmt \020\000\000\000\001\000\001\000\104\254\000\000\210\130\001\000\002\000\020\000data\004\000\000\000\001\002\003\004' >"$file"
printed=$(strace -f -o "$folder/calls" "$program" show "$file" 2>&1) || wrong "$printed"
[ "$printed" = "$(printf 'kind wave\nessence 4')" ] || wrong "another report: $printed"
grep -qF "$file.met" "$folder/calls" || wrong 'no look for a work file'
# the calls behind the last look for the work file, up to the write of the report
awk -v work="$file.met" 'index($0, work) { n = 0; next } / write\(1, / { print n; exit } { n += 1 }' "$folder/calls" >"$folder/count"
calls=$(cat "$folder/count")
echo "between settling and the report: $calls calls"
[ "$calls" -le 8 ] || wrong 'more than eight'
