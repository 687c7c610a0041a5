#!/bin/sh
# Shows that Core tables go through other programs: a table that `export` wrote is read and written again by Python's csv, opened
# and saved by LibreOffice, and parsed by xmllint; `apply` of what comes back must change nothing, and each text must be the one
# that was set. Then a table of 64 MiB is read, beside Python's csv reading it. A test of some tables and no proof. A program that
# isn't installed is skipped with a line; it ends with status 1 where something comes out otherwise.
#   bench/tables.sh
# METAEDIT names a built program; else the script `metaedit` builds it.
set -eu
. "$(dirname -- "$0")/program.sh"
here=$(cd "$(dirname -- "$0")" && pwd)

file=$folder/f.wav
table=$folder/table
cp "$here/../docs/examples/f.wav" "$file"
"$program" set "$file" 'INAM=A title, with a "quoted" word' 'ICMT=one\two' 'Description=<a> & b' 'IART=Ængus' >/dev/null

unchanged() { # FORMAT TABLE WHO: applying the table changes nothing
    printed=$("$program" apply "$file" --as "$1" <"$2" 2>&1) || wrong "$3: $printed"
    case $printed in
    'done unchanged '*) echo "$3: $printed" ;;
    *) wrong "$3: $printed" ;;
    esac
}

cd "$folder" # the name in a table is the word that was given
file=f.wav
"$program" export "$file" --as csv >"$table.csv"
"$program" export "$file" --as xml >"$table.xml"
unchanged csv "$table.csv" 'CSV as it was written'
unchanged xml "$table.xml" 'XML as it was written'

if command -v python3 >/dev/null; then
    python3 - "$table.csv" >"$table.again.csv" <<'PYTHON'
import csv, sys
rows = list(csv.reader(open(sys.argv[1], newline='', encoding='utf-8')))
sys.stdout.reconfigure(encoding='utf-8', newline='')
csv.writer(sys.stdout, quoting=csv.QUOTE_ALL).writerows(rows)
PYTHON
    unchanged csv "$table.again.csv" "Python's csv, all cells quoted"
else
    echo 'python3: skipped, not installed'
fi
if command -v soffice >/dev/null; then
    mkdir -p saved
    soffice --headless --convert-to csv:'Text - txt - csv (StarCalc)':44,34,76 --infilter='Text - txt - csv (StarCalc):44,34,76' \
        --outdir saved "$table.csv" >/dev/null 2>&1
    unchanged csv saved/table.csv LibreOffice
else
    echo 'soffice: skipped, not installed'
fi
if command -v xmllint >/dev/null; then
    xmllint --noout "$table.xml" || wrong 'xmllint: not well formed'
    found=$(xmllint --xpath 'string(/Core/File[@name="f.wav"]/Field[@name="Description"])' "$table.xml")
    [ "$found" = '<a> & b' ] || wrong "xmllint: $found"
    echo "xmllint: Description is $found"
else
    echo 'xmllint: skipped, not installed'
fi

# a table of 64 MiB: many rows of other files, and the file's last
if command -v python3 >/dev/null; then
    python3 - "$folder/large.csv" <<'PYTHON'
import sys
row = b'other.wav,A title of some length,"a, b",one\\x41two\n'
head, last = b'FileName,INAM,ICMT,IART\n', b'f.wav,,,\n'
count = (67108864 - len(head) - len(last)) // len(row)
with open(sys.argv[1], 'wb') as out:
    out.write(head)
    for _ in range(count // 1000):
        out.write(row * 1000)
    out.write(row * (count % 1000))
    out.write(last)
PYTHON
    begin=$(date +%s.%N)
    python3 -c 'import csv, sys
for row in csv.reader(open(sys.argv[1], newline="", encoding="utf-8")): pass' "$folder/large.csv"
    middle=$(date +%s.%N)
    if [ -x /usr/bin/time ]; then
        /usr/bin/time -f '%M kB at most' "$program" apply "$file" --as csv <"$folder/large.csv"
    else
        "$program" apply "$file" --as csv <"$folder/large.csv"
    fi
    end=$(date +%s.%N)
    echo "64 MiB: Python's csv $(echo "$middle $begin" | awk '{printf "%.2f", $1 - $2}') s, apply $(echo "$end $middle" | awk '{printf "%.2f", $1 - $2}') s"
fi
