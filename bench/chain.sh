#!/bin/sh
# Times the built program on a chain of 10,000 numbers, and on one of twice as many bytes.
# Prints both times, each the least of ten runs, and their ratio.
# shellcheck source=bench/common.sh
. "$(dirname "$(readlink -f "$0")")/common.sh"
find_program

# 10,000 numbers of so many digits
script() {
    awk -v digits="$1" 'BEGIN {
        printf "workflow { channel.of("
        for (i = 0; i < 10000; i++) printf "%s%0*d", (i ? ", " : ""), digits, (i * 7919) % 10007
        print ").map { it * 10 }.view() }"
    }'
}

script 6 >"$folder/once.nf"
script 14 >"$folder/twice.nf"
for size in once twice; do
    for _ in $(seq 10); do
        timed "$program" run "$folder/$size.nf" >>"$folder/$size"
    done
done
once=$(least once)
twice=$(least twice)
echo "10,000 numbers, $(wc -c <"$folder/once.nf") bytes, $(wc -l <"$folder/printed") lines: $(ms "$once") ms (due: less than 200)"
echo "10,000 numbers, $(wc -c <"$folder/twice.nf") bytes: $(ms "$twice") ms"
echo "ratio: $(ratio "$twice" "$once") (due: at most 2.5)"
