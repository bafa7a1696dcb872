#!/bin/sh
# Times several workers of the built program, on a file system in memory: 1,000 and 5,000 tasks on 4 workers beside the loop of floor.c on 4 processes;
# the same resumed; 200,000 items through four operators, and closures that cost a millisecond each, on one worker and on 4; and the processor time of
# 16 workers that wait for one task. Prints the times, each the least of five runs, and their ratios.
# shellcheck source=bench/common.sh
. "$(dirname "$(readlink -f "$0")")/common.sh"
find_program

memory=$(mktemp -d /dev/shm/workers.XXXXXX)
trap 'rm -rf "$folder" "$memory"' EXIT
cc -O2 -o "$folder/floor" "$top/bench/floor.c"

# a script of so many tasks
tasks() {
    awk -v count="$1" 'BEGIN {
        print "process P { input: val x; output: stdout; script: \"printf $x\" }"
        printf "workflow { P(channel.of("
        for (i = 0; i < count; i++) printf "%s%d", (i ? ", " : ""), i
        print ")).view() }"
    }'
}

# a command in the folder without what an earlier one left
anew() {
    rm -rf "$memory/work"
    (cd "$memory" && "$@")
}

compared() {
    echo "$1: $(ms "$(least "$3")") ms; $2: $(ms "$(least "$4")") ms; ratio $(ratio "$(least "$3")" "$(least "$4")") (due: at most $5)"
}

tasks 1000 >"$folder/one.nf"
tasks 5000 >"$folder/five.nf"
for _ in $(seq 5); do
    anew "$folder/floor" 1000 4 >>"$folder/floor-one"
    anew timed "$program" run "$folder/one.nf" >>"$folder/one"
    (cd "$memory" && timed "$program" run "$folder/one.nf" -resume) >>"$folder/one-resumed"
    anew timed "$program" run "$folder/five.nf" >>"$folder/five"
    (cd "$memory" && timed "$program" run "$folder/five.nf" -resume) >>"$folder/five-resumed"
done
compared "1,000 tasks on 4 workers" "by a bare loop on 4 processes" one floor-one 1.25
compared "5,000 tasks" "1,000" five one 5.5
compared "1,000 tasks resumed" "run" one-resumed one 0.1
compared "5,000 tasks resumed" "1,000 resumed" five-resumed one-resumed 5.5
rm -rf "$memory/work"
echo "memory of 5,000 tasks: $(cd "$memory" && /usr/bin/time -f %M "$program" run "$folder/five.nf" 2>&1 >/dev/null | tail -n 1) KiB (due: less than 65536)"

echo 'workflow { channel.of(1..200000).map { it + 1 }.filter { it > 0 }.map { it * 2 }.count().view() }' >"$folder/items.nf"
# a closure that takes some milliseconds
echo 'workflow { channel.of(1..400).map { i -> (1..3000).collect { x -> (x * i) % 1000003 }.sum() }.count().view() }' >"$folder/closures.nf"
cd "$memory"
for _ in $(seq 5); do
    timed "$program" run "$folder/items.nf" -queue-size 1 >>"$folder/items-alone"
    timed "$program" run "$folder/items.nf" -queue-size 4 >>"$folder/items-four"
    timed "$program" run "$folder/closures.nf" -queue-size 1 >>"$folder/closures-alone"
    timed "$program" run "$folder/closures.nf" -queue-size 4 >>"$folder/closures-four"
done
compared "200,000 items on 4 workers" "on one" items-four items-alone 1.3
echo "400 long closures on one worker: $(ms "$(least closures-alone)") ms; on 4: $(ms "$(least closures-four)") ms;" \
    "ratio $(ratio "$(least closures-alone)" "$(least closures-four)") (due: at least 3)"

echo 'process P { script: "sleep 5" }
workflow { P() }' >"$folder/sleep.nf"
rm -rf work
/usr/bin/time -f '%U %S' "$program" run "$folder/sleep.nf" -queue-size 16 2>&1 >/dev/null | tail -n 1 \
    | awk '{ printf "16 workers that wait 5 s for a task: %.2f s of processor time (due: less than 0.2)\n", $1 + $2 }'
