#!/bin/sh
# Times the built program on 10,000 numbers that stand in a script, are mapped and printed, and perl on the same numbers.
# Prints both times, each the least of ten runs, and their ratio.
# shellcheck source=bench/common.sh
. "$(dirname "$(readlink -f "$0")")/common.sh"
find_program

awk 'BEGIN { for (i = 0; i < 10000; i++) print (i * 7919) % 10007 }' >"$folder/numbers"
{
    printf 'workflow { channel.of('
    paste -sd , "$folder/numbers" | tr -d '\n'
    echo ').map { it * 10 }.view() }'
} >"$folder/items.nf"

# both are timed in turn, so that a slow moment of the machine meets both
cd "$folder"
for _ in $(seq 10); do
    timed "$program" run items.nf >>items
    # shellcheck disable=SC2016 # perl reads its own names
    timed perl -ne 'print $_ * 10, "\n"' numbers >>perl
done
echo "10,000 items: $(ms "$(least items)") ms; perl: $(ms "$(least perl)") ms; ratio $(ratio "$(least items)" "$(least perl)") (due: at most 3)"
