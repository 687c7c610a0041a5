#!/bin/sh
# Checks the manual page, the completions and the links between the documents, each where its tool is there.
# It ends with 1 where one is faulty.
set -u
top=$(CDPATH='' cd -- "$(dirname -- "$0")/.." && pwd) || exit 1
cd "$top" || exit 1
faults=0

# says what was found: check NAME TOOL COMMAND..
check() {
    name=$1
    tool=$2
    shift 2
    if ! command -v "$tool" >/dev/null 2>&1; then
        echo "skipped $name: $tool isn't here"
        return
    fi
    if said=$("$@" 2>&1 >/dev/null) && [ -z "$said" ]; then
        echo "sound $name"
    else
        echo "faulty $name"
        echo "$said"
        faults=1
    fi
}

check doc/metaedit.1 man man --warnings -l doc/metaedit.1
check completions/metaedit.bash bash bash -n completions/metaedit.bash
check completions/_metaedit zsh zsh -n completions/_metaedit
check completions/metaedit.fish fish fish --no-execute completions/metaedit.fish

# each link to a file of the repository leads to one
for page in README.md docs/*.md; do
    for link in $(grep -o '](\([A-Za-z0-9_./-]*\))' "$page" | sed 's/](\(.*\))/\1/'); do
        if [ ! -e "$(dirname "$page")/$link" ]; then
            echo "faulty $page: no $link"
            faults=1
        fi
    done
done
exit $faults
