#!/bin/sh
# Installs the editor, its manual page and its completions under a prefix, or takes them away again.
#
#   ./install.sh [PREFIX]             else /usr/local
#   ./install.sh --remove [PREFIX]    takes away exactly these files, and no folder
#
# METAEDIT names a built program; else the script `metaedit` builds it where that is needed. DESTDIR goes before each path.
set -eu
top=$(CDPATH='' cd -- "$(dirname -- "$0")" && pwd)
remove=no
if [ "${1:-}" = --remove ]; then
    remove=yes
    shift
fi
case ${1:-} in -*) echo "install.sh: no option $1" >&2; exit 2 ;; esac
to=${DESTDIR:-}${1:-/usr/local}

# the mode of each file, the place that it takes under the prefix, and the file
files() {
    echo "755 bin/metaedit ${METAEDIT:-$top/crates/metaedit/out/metaedit}"
    echo "644 share/man/man1/metaedit.1 $top/doc/metaedit.1"
    echo "644 share/bash-completion/completions/metaedit $top/completions/metaedit.bash"
    echo "644 share/zsh/site-functions/_metaedit $top/completions/_metaedit"
    echo "644 share/fish/vendor_completions.d/metaedit.fish $top/completions/metaedit.fish"
}

if [ $remove = no ] && [ -z "${METAEDIT:-}" ]; then
    # without words the editor refuses and touches no file
    "$top/metaedit" </dev/null 2>&1 | grep -v '^refused' >&2 || true
fi
files | while read -r mode place from; do
    if [ $remove = yes ]; then
        rm -f -- "$to/$place"
        continue
    fi
    mkdir -p -- "$(dirname -- "$to/$place")"
    # a new file takes the name in one step, so that a run that goes on meanwhile keeps its program
    cp -- "$from" "$to/$place.new"
    chmod "$mode" "$to/$place.new"
    mv -f -- "$to/$place.new" "$to/$place"
    echo "$to/$place"
done
