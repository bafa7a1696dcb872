#!/bin/sh
# Times 200,000 pushes into `unique` and 100,000 pairs through `join`, all of other keys, and half as many. The keys come nearly in order, so that
# the ratio shows how many steps there are, and not how much of the map fits the processor's cache.
# Prints both times, each the least of ten runs, and their ratio.
# shellcheck source=bench/common.sh
. "$(dirname "$(readlink -f "$0")")/common.sh"
find_bench nf_bench

# the two counts are timed in turn, so that a slow moment of the machine meets both
while read -r operator count; do
    for _ in $(seq 10); do
        benched "$operator" $((count / 2)) >>"$folder/$operator.half"
        benched "$operator" "$count" >>"$folder/$operator.whole"
    done
    half=$(least "$operator.half")
    whole=$(least "$operator.whole")
    echo "$operator: $count: $(ms "$whole") ms, half as many: $(ms "$half") ms, ratio $(ratio "$whole" "$half") (due: at most 2.5)"
done <<END
unique 200000
join 100000
END
