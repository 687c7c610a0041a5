#!/bin/sh
# Tries what real folders do to a file: closed streams, fifos, links, rights, read-only media, long names, a full disk, several runs
# at once, and a file that grows while it is copied. A line for each; the last is `N of M wrong`, and the status 1 where N isn't 0.
# A test and no proof. What needs root (other users, a mount) is skipped with a line elsewhere.
#   bench/hostile.sh [FOLDER]     FOLDER is on the disk to be tried, else a new one beside this clone
# METAEDIT names a built program; else the script `metaedit` builds it.
set -u
. "$(dirname -- "$0")/program.sh"
chmod 755 "$folder"
cp "$program" "$folder/me"
me=$folder/me
nobody=65534
rewrite=Description=x
place=INAM=Hi
tried=0
bad=0

# a WAVE file of 200,000 bytes of sound, and the same with an empty bext in front; sizes are little-endian
head -c 200000 /dev/urandom >"$folder/sound"
{
    printf 'RIFF\144\015\003\000WAVEfmt \020\000\000\000\001\000\001\000\104\254\000\000\210\130\001\000\002\000\020\000data\100\015\003\000'
    cat "$folder/sound"
} >"$folder/plain"
{
    printf 'RIFF\306\017\003\000WAVEbext\132\002\000\000'
    head -c 602 /dev/zero
    printf 'fmt \020\000\000\000\001\000\001\000\104\254\000\000\210\130\001\000\002\000\020\000data\100\015\003\000'
    cat "$folder/sound"
} >"$folder/bext"

# COMMAND WORD..: a run for at most ten seconds; `status` is its status, 124 where it waits
run() {
    status=0
    timeout 10 "$me" "$@" >/dev/null 2>&1 || status=$?
}

as_nobody() {
    status=0
    timeout 10 setpriv --reuid=$nobody --regid=$nobody --clear-groups "$me" "$@" >/dev/null 2>&1 || status=$?
}

# NAME: a new folder for a situation
situation() {
    name=$1
    tried=$((tried + 1))
    cd "$folder"
    rm -rf here
    mkdir here
    chmod 777 here
    cd here
}

# FACT..: prints `right` where the test holds, else `wrong`
right() {
    if "$@"; then
        echo "right $name"
    else
        bad=$((bad + 1))
        echo "wrong $name: status $status"
    fi
}

skip() {
    tried=$((tried - 1))
    echo "skipped: $name"
}

alone() { # the folder holds the file and nothing else
    [ "$(ls -A)" = f.wav ]
}

# the files that edits make of the two
cp "$folder/plain" "$folder/rewritten"
"$me" set "$folder/rewritten" $rewrite >/dev/null || wrong 'a rewrite is refused'
cp "$folder/bext" "$folder/described"
"$me" set "$folder/described" $rewrite >/dev/null || wrong 'an edit in place is refused'

old_or_new() {
    cmp -s f.wav "$folder/bext" || cmp -s f.wav "$folder/described"
}

for streams in '<&- >&-' '<&- >&- 2>&-' '2>&-'; do
    situation "streams are closed: $streams"
    cp "$folder/bext" f.wav
    status=0
    eval "sh -c 'exec \"\$0\" set f.wav $rewrite $streams' \"$me\"" >/dev/null 2>&1 || status=$?
    right old_or_new
done

refused() { # neither done nor waiting
    [ "$status" != 0 ] && [ "$status" != 124 ]
}

situation 'the file is a fifo'
mkfifo f.wav
run show f.wav
right refused

situation 'the journal is a fifo'
cp "$folder/plain" f.wav
mkfifo f.wav.mej
run show f.wav
right refused

situation 'the file is a folder or a device'
mkdir f.wav
run recover f.wav
refused && run recover /dev/zero
right refused


for kind in mkfifo 'ln -s victim' 'ln victim' 'ln -s f.wav'; do
    situation "the work file was made by: $kind"
    echo keep >victim
    cp "$folder/plain" f.wav
    $kind f.wav.met
    run set f.wav $rewrite
    kept() {
        cmp -s f.wav "$folder/rewritten" && [ ! -L f.wav ] && [ "$(cat victim)" = keep ]
    }
    right kept
done

situation 'a link is followed, and stays'
mkdir store
cp "$folder/plain" store/r.wav
ln -s store/r.wav f.wav
run set f.wav $rewrite
followed() {
    [ -L f.wav ] && cmp -s store/r.wav "$folder/rewritten" && [ "$(ls -A store)" = r.wav ]
}
right followed

situation 'names of 240, 251 and 255 bytes are shown'
all=0
for length in 236 247 251; do
    long=$(printf "%0${length}d" 0).wav
    cp "$folder/plain" "$long"
    run show "$long"
    all=$((all + status))
done
right [ $all = 0 ]

situation 'a full disk leaves no work file'
cp "$folder/plain" f.wav
status=0
(trap '' XFSZ; ulimit -f 100; exec "$me" set f.wav $rewrite) >/dev/null 2>&1 || status=$?
untouched() {
    [ "$status" = 9 ] && alone && cmp -s f.wav "$folder/plain"
}
right untouched

situation 'what stands beside a private file is private'
cp "$folder/plain" f.wav
chmod 600 f.wav
status=0
(trap '' XFSZ; ulimit -f 250; exec "$me" set f.wav $rewrite) >/dev/null 2>&1 &
others=0
while kill -0 $! 2>/dev/null; do
    [ ! -e f.wav.met ] || [ -z "$(find f.wav.met -perm /077 2>/dev/null)" ] || others=1
done
right [ $others = 0 ]

situation 'the mode stays at a rewrite'
cp "$folder/plain" f.wav
chmod 640 f.wav
run set f.wav $rewrite
right [ "$(stat -c %a f.wav) $status" = '640 0' ]

if [ "$(id -u)" = 0 ]; then
    situation 'owner and group stay at a rewrite'
    cp "$folder/plain" f.wav
    chown $nobody:60 f.wav
    chmod 640 f.wav
    run set f.wav $rewrite
    right [ "$(stat -c '%a %u %g' f.wav) $status" = "640 $nobody 60 0" ]

    situation 'a folder that may not be written: show answers'
    cp "$folder/plain" f.wav
    chmod 555 .
    as_nobody show f.wav
    right [ "$status" = 0 ]

    situation 'a write-protected file: refused in either way, nothing left, show answers'
    cp "$folder/plain" f.wav
    chmod 444 f.wav
    chown $nobody:$nobody . f.wav
    as_nobody set f.wav $place
    first=$status
    as_nobody set f.wav $rewrite
    second=$status
    as_nobody show f.wav
    protected() {
        [ "$first $second $status" = '9 9 0' ] && alone && cmp -s f.wav "$folder/plain"
    }
    right protected

    situation 'a folder that may not be read: the answer and the file agree'
    cp "$folder/plain" f.wav
    chown $nobody:$nobody . f.wav
    chmod 311 .
    as_nobody set "$folder/here/f.wav" $rewrite
    chmod 755 .
    agree() {
        if [ "$status" = 0 ]; then cmp -s f.wav "$folder/rewritten"; else cmp -s f.wav "$folder/plain"; fi
    }
    right agree

    situation 'a read-only medium: show and md5 answer'
    mkdir medium
    if mount -t tmpfs -o size=2m none medium 2>/dev/null; then
        cp "$folder/plain" medium/f.wav
        mount -o remount,ro medium
        run show medium/f.wav
        first=$status
        run md5 medium/f.wav
        umount medium
        right [ "$first $status" = '0 0' ]
    else
        skip
    fi
fi

situation 'two runs at once, 20 times: what is told done is in the file'
lost=0
k=0
while [ $k -lt 20 ]; do
    k=$((k + 1))
    rm -f f.wav*
    cp "$folder/plain" f.wav
    "$me" set f.wav Description=first >/dev/null 2>&1 &
    one=$!
    "$me" set f.wav INAM=second >/dev/null 2>&1 &
    two=$!
    if wait $one && ! grep -q first f.wav; then lost=$((lost + 1)); fi
    if wait $two && ! grep -q second f.wav; then lost=$((lost + 1)); fi
    grep -q first f.wav && grep -q second f.wav || lost=$((lost + 1))
done
right [ $lost = 0 ]

situation 'show beside a running edit, 20 times: the edit ends done'
lost=0
k=0
while [ $k -lt 20 ]; do
    k=$((k + 1))
    rm -f f.wav*
    cp "$folder/plain" f.wav
    "$me" set f.wav $rewrite >/dev/null 2>&1 &
    edit=$!
    run show f.wav
    wait $edit && cmp -s f.wav "$folder/rewritten" || lost=$((lost + 1))
done
right [ $lost = 0 ]

situation "a file that grew while it was copied isn't replaced"
{
    printf 'RIFF\044\000\000\020WAVEfmt \020\000\000\000\001\000\001\000\104\254\000\000\210\130\001\000\002\000\020\000data\000\000\000\020'
    head -c 268435456 /dev/zero
} >f.wav
"$me" set f.wav $rewrite >/dev/null 2>&1 &
edit=$!
while kill -0 $edit 2>/dev/null && [ ! -e f.wav.met ]; do :; done
printf 'grown while copied' >>f.wav
status=0
wait $edit || status=$?
grown() {
    [ "$status" = 9 ] && [ "$(tail -c 18 f.wav)" = 'grown while copied' ]
}
right grown

cd "$top"
echo "$bad of $tried wrong"
[ $bad = 0 ]
