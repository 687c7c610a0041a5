#!/bin/sh
# Times `metaedit show` and `validate` on AVI files that are made to be slow to read, each with as much of one thing as an AVI file
# may have: 65,535 index chunks that a super index names and a million entries of `idx1`; as many standard indexes with a million
# entries between them; 32,000 streams with a name each; a stream with 32,000 names; 65,000 items of one list of fields; and a name
# of 16 MiB. A line for each, with its seconds and the most memory. It ends with status 1 where a run fails or takes more than LIMIT
# seconds (10). Figures of one machine, and no proof; nothing is promised of time or memory.
#   bench/avi.sh [FOLDER]     FOLDER is on the disk to be tried, and has 64 MiB free; else a new one beside this clone
# METAEDIT names a built program; else the script `metaedit` builds it. It needs Python 3 and a C compiler. KINDS names
# those of the files that are tried (chunks entries streams names items long).
set -eu
. "$(dirname -- "$0")/program.sh"
cat >"$folder/make.py" <<'END'
import struct
import sys


def chunk(name, body):
    return name + struct.pack("<I", len(body)) + body + b"\0" * (len(body) % 2)


def listed(word, *chunks):
    return chunk(b"LIST", word + b"".join(chunks))


def avi(hdrl, movi, *others):
    return chunk(b"RIFF", b"AVI " + hdrl + movi + b"".join(others))


def stream(*chunks):
    return listed(b"strl", *chunks)


# a super index that names chunks at these places
def super_index(places):
    entries = b"".join(struct.pack("<QII", place, 40, 1) for place in places)
    return chunk(b"indx", struct.pack("<HBBI4sIII", 4, 0, 0, len(places), b"00db", 0, 0, 0) + entries)


# a standard index of frames at these places
def standard_index(places):
    entries = b"".join(struct.pack("<II", place, 4) for place in places)
    return chunk(b"ix00", struct.pack("<HBBI4sQI", 2, 0, 1, len(places), b"00db", 0, 0) + entries)


FRAME = chunk(b"00db", b"abcd")


# so many standard indexes in movi, each with so many entries that name frames behind them, and entries of idx1 that count from the start
def indexed(chunks, entries, rows):
    size = 32 + 8 * entries
    hdrl = 12 + 12 + 8 + 24 + 16 * chunks
    inside = 12 + hdrl + 12
    frames = 1024
    first = inside + size * chunks
    place = lambda k: first + len(FRAME) * (k % frames)
    indexes = b"".join(standard_index([place(k * entries + n) + 8 for n in range(entries)]) for k in range(chunks))
    movi = listed(b"movi", indexes, FRAME * frames)
    named = super_index([inside + size * k for k in range(chunks)])
    old = b"".join(b"00db" + struct.pack("<III", 16, place(7 * k), 4) for k in range(rows))
    return avi(listed(b"hdrl", stream(named)), movi, chunk(b"idx1", old))


def plain(*chunks, others=()):
    return avi(listed(b"hdrl", *chunks), listed(b"movi", FRAME), *others)


name = chunk(b"strn", b"Camera\0")
FILES = {
    "chunks": lambda: indexed(65535, 1, 1000000),
    "entries": lambda: indexed(65535, 15, 0),
    "streams": lambda: plain(*[stream(name)] * 32000),
    "names": lambda: plain(stream(*[name] * 32000)),
    "items": lambda: plain(others=[listed(b"INFO", *[chunk(b"INAM", b"A\0")] * 65000)]),
    "long": lambda: plain(stream(chunk(b"strn", b"A" * (1 << 24)))),
}
with open(sys.argv[2], "wb") as file:
    file.write(FILES[sys.argv[1]]())
END
plain=$folder/plain
cc -O2 -o "$plain" "$top/bench/plain.c"
bad=0
for kind in ${KINDS:-chunks entries streams names items long}; do
    python3 "$folder/make.py" "$kind" "$folder/$kind.avi"
    for command in show validate; do
        "$plain" run timeout "${LIMIT:-10}" "$program" "$command" "$folder/$kind.avi" >"$folder/printed" 2>"$folder/run" || true
        told=$(tail -n 1 "$folder/run")
        echo "$kind $command: $(echo "$told" | awk '{ printf "%.2f s, %.1f MiB, status %d", $1, $2 / 1024, $3 }')"
        case ${told##* } in
            0 | 1) ;;
            *) bad=$((bad + 1)) ;;
        esac
    done
    rm -f "$folder/$kind.avi"
done
echo "$bad wrong"
[ "$bad" -eq 0 ]
