#!/bin/sh
# Prints a table of the crates, in the order and the groups of crates.txt: what each needs, its lines of code (src/), of definitions (specs/) and of
# proofs (proofs/), its functions with a body (none where the crate holds tests), and its must-fail edits.
set -eu
cd "$(dirname "$(readlink -f "$0")")/.."

# the files of some kind in a folder of a crate, one after another
text() {
    [ ! -d "crates/$1/$2" ] || find "crates/$1/$2" -type f -name "*.$3" -exec cat {} +
}

# A function's head begins with `fn` behind its words. It has a body where a `{` ends the head or stands alone below it, at the same depth, before the
# `;` that ends a head without one.
functions() {
    awk '
        /^ *#\[test\]/ { tests = 1 }
        /^ *((pub(\([a-z ]+\))?|const|unsafe) )*fn / { match($0, /[^ ]/); depth = RSTART; in_head = 1; is_first = 1 }
        in_head {
            match($0, /[^ ]/)
            if (RSTART == depth && /[{}]$/) { count++; in_head = 0 }
            else if (/;$/) in_head = 0
        }
        END { print tests ? 0 : count + 0 }
    '
}

# the row of a crate with these needs
row() {
    code=$(text "$1" src rt | wc -l)
    specs=$(text "$1" specs antt | wc -l)
    proofs=$(text "$1" proofs antt | wc -l)
    edits=$(find "crates/$1" -path '*/must-fail/*.edit' | wc -l)
    # shellcheck disable=SC2016 # the marks are the table's
    printf '| `%s` | %s | %d | %d | %d | %d | %d |\n' "$1" "$2" "$code" "$specs" "$proofs" "$(text "$1" src rt | functions)" "$edits"
}

# the head of a group's table
title_row() {
    printf '\n%s\n\n' "$1"
    echo "| Crate | Needs | Code | Definitions | Proofs | Functions | Must-fail edits |"
    echo "|---|---|---|---|---|---|---|"
}

# a comment above some crates is the head of their group
sed 's/[[:space:]]*$//' crates.txt | while IFS= read -r line; do
    case $line in
    '#'*) title=${line#'#'} ;;
    *:*)
        [ -z "${title-}" ] || title_row "${title# }"
        title=
        row "${line%%[ :]*}" "$(echo "${line#*:}" | sed 's/#.*//; s/^ *//')"
        ;;
    esac
done
