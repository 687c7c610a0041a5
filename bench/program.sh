# Read by the scripts of this folder, as `. program.sh FOLDER`: sets `program` to the path of the built editor, and `folder` to a new
# folder in FOLDER (else beside this clone), which goes when the script ends; `wrong` says what is wrong and ends it. METAEDIT names
# a program; else the script `metaedit` builds it where that is needed. Without words the editor refuses and touches no file.
top=$(CDPATH='' cd -- "$(dirname -- "$0")/.." && pwd)
if [ -n "${METAEDIT:-}" ]; then
    program=$(CDPATH='' cd -- "$(dirname -- "$METAEDIT")" && pwd)/$(basename -- "$METAEDIT")
else
    "$top/metaedit" </dev/null 2>&1 | grep -v '^refused' >&2 || true
    program=$top/crates/metaedit/out/metaedit
fi
parent=${1:-$top}
mkdir -p "$parent"
folder=$(mktemp -d "$parent/.bench.XXXXXX")
folder=$(cd "$folder" && pwd -P)
trap 'rm -rf "$folder"' EXIT

wrong() {
    echo "WRONG $*"
    exit 1
}
