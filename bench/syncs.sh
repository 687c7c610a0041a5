#!/bin/sh
# Shows what an edit in place and a rewrite make safe, and in which order: it lists by strace the calls that sync, rename and take
# away, and compares them with the list below. A test of two edits and no proof; it ends with status 1 where the list is another.
# Without strace it is skipped with a line.
#   bench/syncs.sh
# METAEDIT names a built program; else the script `metaedit` builds it.
set -eu
. "$(dirname -- "$0")/program.sh"
command -v strace >/dev/null || {
    echo 'skipped: strace is not installed'
    exit 0
}
cd "$folder"
printf 'RIFF\074\000\000\000WAVEfmt \020\000\000\000\001\000\001\000\104\254\000\000\210\130\001\000\002\000\020\000LIST\014\000\000\000INFOINAM\000\000\000\000data\004\000\000\000\001\002\003\004' >f.wav

# WORDS..: the calls of an edit, one a line; the folder is told as `.`
calls() {
    strace -f -y -e trace=fsync,fdatasync,rename,renameat,renameat2,unlink,unlinkat -o calls "$program" "$@" >printed 2>&1 ||
        wrong "$(cat printed)"
    sed -n \
        -e "s|.*f[a-z]*sync([0-9]*<$folder>).*|sync .|p" \
        -e "s|.*f[a-z]*sync([0-9]*<$folder/\([^>]*\)>).*|sync \1|p" \
        -e 's|.*f[a-z]*sync([0-9]*<\(.*\)>).*|sync \1|p' \
        -e 's|.*rename[a-z0-9]*(.*"\(.*\)",.*"\(.*\)".*|rename \1 \2|p' \
        -e 's|.*unlink[a-z]*(.*"\(.*\)".*|unlink \1|p' calls
}

calls set f.wav ICMT=longer >rewrite
calls set f.wav ICMT=other1 >in-place
[ "$(cat printed)" = 'done changed in-place essence 4' ] || wrong "$(cat printed)"
diff - rewrite <<'LIST' || wrong 'a rewrite makes other calls'
sync f.wav.met
sync f.wav
sync .
rename f.wav.met f.wav
sync .
LIST
diff - in-place <<'LIST' || wrong 'an edit in place makes other calls'
sync f.wav.met
sync f.wav
sync .
rename f.wav.met f.wav.mej
sync .
sync f.wav
unlink f.wav.mej
sync .
LIST
echo 'an edit in place and a rewrite: each file and the folder are synced where they are to be'
