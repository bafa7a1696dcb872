#!/bin/sh
# Times a closure on lists of 10,000 and of 100 numbers, each so often that it is applied 10,000 times, and prints the ratio of the two. Times 10,000
# environments over 1,000 and over 10 functions, prints that ratio, and whether the former take less than 32 MiB of memory. Then times the built program on
# 10,000 numbers through `map { it * 3 + 1 }` and `view`, and `perl -ne` that does the same to the lines of a file, and prints that ratio.
# Each time is the least of ten runs.
# shellcheck source=bench/common.sh
. "$(dirname "$(readlink -f "$0")")/common.sh"
find_bench nf_bench
find_program

awk 'BEGIN { for (i = 0; i < 10000; i++) print (i * 7919) % 10007 }' >"$folder/numbers"
{
    printf 'workflow { channel.of('
    paste -s -d , "$folder/numbers" | tr -d '\n'
    echo ').map { it * 3 + 1 }.view() }'
} >"$folder/mapped.nf"

# what is compared is timed in turn, so that a slow moment of the machine meets all
for _ in $(seq 10); do
    benched closure 100 >>"$folder/few"
    benched closure 10000 >>"$folder/many"
    benched environments 10 >>"$folder/small"
    benched environments 1000 >>"$folder/large"
    timed "$program" run "$folder/mapped.nf" >>"$folder/program"
    # shellcheck disable=SC2016 # perl's own name
    timed perl -ne 'print $_ * 3 + 1, "\n"' "$folder/numbers" >>"$folder/perl"
done

# the microseconds of one of 10,000 items
each() {
    awk -v time="$1" 'BEGIN { printf "%.3f", time / 10000 }'
}

few=$(least few)
many=$(least many)
mapped=$(least program)
perl=$(least perl)
echo "a closure on 10,000 items: $(each "$many") us an item, on 100: $(each "$few") us an item, ratio $(ratio "$many" "$few") (due: at most 1.5)"
small=$(least small)
large=$(least large)
echo "10,000 environments over 1,000 functions: $(ms "$large") ms, over 10: $(ms "$small") ms, ratio $(ratio "$large" "$small") (due: at most 1.5)"
if (ulimit -v 32768 && benched environments 1000) >/dev/null; then
    echo "10,000 environments over 1,000 functions take less than 32 MiB of memory"
else
    echo "10,000 environments over 1,000 functions take more than 32 MiB of memory"
fi
echo "10,000 items through map and view: $(ms "$mapped") ms, by perl: $(ms "$perl") ms, ratio $(ratio "$mapped" "$perl") (due: at most 5)"
