# What the scripts here share. Each reads this file first, and has then a folder of its own, which goes when it ends.
# shellcheck shell=sh disable=SC2034
set -eu
top=$(dirname "$(readlink -f "$0")")/..
folder=$(mktemp -d)
trap 'rm -rf "$folder"' EXIT

# sets `program` to that of the folder BENCH_PROGRAMS, where it has one, else to the program of these sources, which is built where there is none yet
find_program() {
    if [ -n "${BENCH_PROGRAMS:-}" ] && [ -x "$BENCH_PROGRAMS/pasmovuk" ]; then
        program=$(readlink -f "$BENCH_PROGRAMS/pasmovuk")
        return
    fi
    program=$("$top/release/find")
}

# sets `bench` to the program of this crate: that of the folder BENCH_PROGRAMS, where this is set, else one that is built here
find_bench() {
    if [ -n "${BENCH_PROGRAMS:-}" ]; then
        bench=$(readlink -f "$BENCH_PROGRAMS/$1")
        return
    fi
    (cd "$top/crates/$1" && rt run) >/dev/null 2>&1
    bench=$(readlink -f "$top/crates/$1/out/$1")
}

# the microseconds of one run of a command, whose output stands then in the file `printed` of the folder
timed() {
    start=$(date +%s%N)
    "$@" >"$folder/printed"
    end=$(date +%s%N)
    echo $(((end - start) / 1000))
}

# the microseconds that a program of the benches tells of one run
benched() {
    # shellcheck disable=SC2069 # it tells the time on standard error
    "$bench" "$@" 2>&1 >/dev/null
}

# the least of the times in a file of the folder
least() {
    sort -n "$folder/$1" | head -n 1
}

# microseconds as milliseconds
ms() {
    awk -v time="$1" 'BEGIN { printf "%.1f", time / 1000 }'
}

# how many times the second time the first is
ratio() {
    awk -v time="$1" -v other="$2" 'BEGIN { printf "%.2f", time / other }'
}
