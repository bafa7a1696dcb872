# What the scripts here share: where things stand, and whether a program is that of the sources. Each of them reads this file first.
# shellcheck shell=sh disable=SC2034
release=$(dirname "$(readlink -f "$0")")
top=$(dirname "$release")

# the program as `rt run` builds it; beside it stands a file with the checksum of its sources and with its own
built=$top/crates/pasmovuk/out/pasmovuk

# ends with status 70 and the reason
fail() {
    echo "pasmovuk: it could not be built: $1" >&2
    exit 70
}

# what is written beside a built program of the sources with this checksum
note_of() {
    echo "$1 $(sha256sum <"$built")"
}

# whether the built program is that of the sources with this checksum, and was not changed since
is_built() {
    [ -x "$built" ] && [ -f "$built.sources" ] && [ "$(cat "$built.sources")" = "$(note_of "$1")" ]
}

# whether the released program is that of the sources with this checksum
is_released() {
    [ -x "$release/pasmovuk" ] && [ -f "$release/SOURCES" ] && [ "$(cat "$release/SOURCES")" = "$1" ]
}
