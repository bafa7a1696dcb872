#!/bin/sh
# Times whole runs of graphs in memory, on one lane: 200,000 items through `map`, `filter` and `count`; 100,000 tasks of one process, with equal inputs in
# groups of ten; one item through 20,000 nodes in a row; and half as many of each. Prints both times, each the least of five runs, and their ratio.
# Then runs 1,100,000 small items through `map`, which are more than the limit of the charge allows, and prints how many deliveries there were before the
# run stopped by that name, the processor time of it, its most memory, and that by deliveries.
# shellcheck source=bench/common.sh
. "$(dirname "$(readlink -f "$0")")/common.sh"
find_bench nf_flowbench

# what is compared is timed in turn, so that a slow moment of the machine meets both
while read -r graph count; do
    for _ in $(seq 5); do
        benched "$graph" $((count / 2)) >>"$folder/$graph.half"
        benched "$graph" "$count" >>"$folder/$graph.whole"
    done
    half=$(least "$graph.half")
    whole=$(least "$graph.whole")
    echo "$graph: $count: $(ms "$whole") ms, half as many: $(ms "$half") ms, ratio $(ratio "$whole" "$half") (due: at most 2.2)"
done <<END
items 200000
tasks 100000
row 20000
END

# a run past the limit: the seconds of processor time, and the most memory in KiB, are in the file `used` of the folder
/usr/bin/time -f '%U %S %M' -o "$folder/used" "$bench" map 1100000 >"$folder/printed" 2>/dev/null
echo "1,100,000 items through map: $(cat "$folder/printed")"
deliveries=$(sed 's/^deliveries \([0-9]*\),.*/\1/' "$folder/printed")
awk -v deliveries="$deliveries" '{
    printf "%.1f s of processor time (due: less than 10)\n", $1 + $2
    printf "%d MB of memory (due: at most 1000), %d bytes for each delivery\n", $3 * 1024 / 1000000, $3 * 1024 / deliveries
}' "$folder/used"
