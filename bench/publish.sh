#!/bin/sh
# Times what the built program does after its tasks, on a file system in memory: publishing 2,000 files of 1 KiB beside `cp` of the same files in one call,
# and one file of 256 MiB beside reading, digesting and writing it; the trace of 5,000 tasks beside their run; and `gen` of 10,000 items beside 5,000.
# Publishing is the time by which a resumed run takes longer that publishes. Prints the times, each the least of five runs, and their ratios.
# shellcheck source=bench/common.sh
. "$(dirname "$(readlink -f "$0")")/common.sh"
find_program

memory=$(mktemp -d /dev/shm/publish.XXXXXX)
trap 'rm -rf "$folder" "$memory"' EXIT
cd "$memory"

# a script whose one task makes files, with a directive or none
script() {
    printf 'process MAKE {\n    %s\n    output:\n    path "*.bin"\n    script:\n    %s%s%s\n}\nworkflow { MAKE() }\n' "$1" "'''" "$2" "'''"
}

# the microseconds by which publishing makes a resumed run longer
published() {
    script '' "$1" >plain.nf
    script "publishDir 'results'" "$1" >published.nf
    rm -rf work results
    "$program" run plain.nf >/dev/null
    for _ in $(seq 5); do
        timed "$program" run plain.nf -resume >>"$2-plain"
        rm -rf results
        timed "$program" run published.nf -resume >>"$2-published"
    done
    echo $(($(sort -n "$2-published" | head -n 1) - $(sort -n "$2-plain" | head -n 1))) >"$folder/$2"
}

compared() {
    echo "$1: $(ms "$(least "$3")") ms; $2: $(ms "$(least "$4")") ms; ratio $(ratio "$(least "$3")" "$(least "$4")") (due: at most $5)"
}

published 'for i in $(seq 2000); do printf "%1024d" $i > $i.bin; done' small
for _ in $(seq 5); do
    rm -rf copied
    mkdir copied
    timed cp results/*.bin copied >>"$folder/cp"
done
compared "2,000 files of 1 KiB, published" "by cp" small cp 1.5

published 'head -c 268435456 /dev/zero > big.bin' big
for _ in $(seq 5); do
    rm -rf copied
    mkdir copied
    timed sh -c 'tee copied/big.bin <results/big.bin | sha256sum' >>"$folder/tee"
done
compared "256 MiB, published" "read, digested by sha256sum and written" big tee 1.1
rm -rf work results copied

awk 'BEGIN {
    print "process P { input: val x; output: stdout; script: \"printf $x\" }"
    printf "workflow { P(channel.of("
    for (i = 0; i < 5000; i++) printf "%s%d", (i ? ", " : ""), i
    print ")).count().view() }"
}' >tasks.nf
for _ in 1 2 3; do
    rm -rf work
    timed "$program" run tasks.nf >>"$folder/run"
    timed "$program" run tasks.nf -resume >>"$folder/resumed"
    timed "$program" run tasks.nf -resume -with-trace t.txt >>"$folder/traced"
done
trace=$(($(least traced) - $(least resumed)))
echo "the trace of 5,000 tasks: $(ms "$trace") ms; their run: $(ms "$(least run)") ms; ratio $(ratio "$trace" "$(least run)") (due: less than 0.05)"

for _ in $(seq 5); do
    timed "$program" gen 10000 1 >>"$folder/gen"
    timed "$program" gen 5000 1 >>"$folder/gen-half"
done
compared "gen 10000 1" "gen 5000 1" gen gen-half 2.2
