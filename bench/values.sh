#!/bin/sh
# Times copying, comparing, sorting, encoding and decoding a list of 500,000 and of 1,000,000 numbers.
# Prints both times, each the least of five runs, and their ratio.
# shellcheck source=bench/common.sh
. "$(dirname "$(readlink -f "$0")")/common.sh"
find_bench nf_bench

for operation in copy compare sort encode decode; do
    for count in 500000 1000000; do
        for _ in $(seq 5); do
            benched "$operation" "$count" >>"$folder/$operation.$count"
        done
    done
    once=$(least "$operation.500000")
    twice=$(least "$operation.1000000")
    echo "$operation: $(ms "$once") ms, twice as many: $(ms "$twice") ms, ratio $(ratio "$twice" "$once") (due: below 2.5)"
done
