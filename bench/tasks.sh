#!/bin/sh
# Times, on a file system in memory, 1,000 tasks by the built program, one at a time, 4 at once and resumed, and by the lane of shells, beside the loop of floor.c, which does the
# same but for digests. Then the lane of shells: 500 and 1,000 staged files, and as many outputs; a file of 256 MiB that is stored, and one that is read and
# digested; children with 512 MiB of memory held, and with none. Prints the times, each the least of five runs, and their ratios.
# shellcheck source=bench/common.sh
. "$(dirname "$(readlink -f "$0")")/common.sh"
find_program

awk 'BEGIN {
    print "process P { input: val x; output: stdout; script: \"printf $x\" }"
    printf "workflow { P(channel.of("
    for (i = 0; i < 1000; i++) printf "%s%d", (i ? ", " : ""), (i * 7919) % 10007
    print ")).view() }"
}' >"$folder/tasks.nf"

# all on a file system in memory
find_bench nf_bench
memory=$(mktemp -d /dev/shm/tasks.XXXXXX)
trap 'rm -rf "$folder" "$memory"' EXIT
cc -O2 -o "$folder/floor" "$top/bench/floor.c"

# a command in a new folder of the file system in memory
anew() {
    rm -rf "$memory/work"
    (cd "$memory" && "$@")
}

for _ in $(seq 5); do
    anew "$folder/floor" 1000 >>"$folder/floor-times"
    anew timed "$program" run "$folder/tasks.nf" -queue-size 1 >>"$folder/tasks"
    anew timed "$program" run "$folder/tasks.nf" -queue-size 4 >>"$folder/four"
    (cd "$memory" && timed "$program" run "$folder/tasks.nf" -resume) >>"$folder/resumed"
    anew benched tasks 1000 >>"$folder/lane"
    anew benched digests 1000 >>"$folder/digests"
    anew benched staged 500 >>"$folder/staged-half"
    anew benched staged 1000 >>"$folder/staged"
    anew benched outputs 500 >>"$folder/outputs-half"
    anew benched outputs 1000 >>"$folder/outputs"
    anew benched children 0 >>"$folder/none-held"
    anew benched children 512 >>"$folder/held"
done
head -c 268435456 /dev/zero >"$memory/big"
# the stored file goes only right before the next is stored, so that this takes memory that the system has at hand
for _ in $(seq 10); do
    (cd "$memory" && benched digest 1) >>"$folder/digest"
    anew benched store 1 >>"$folder/store"
done

# prints the ratio of two times, and the most that it may be
compared() {
    echo "$1: $(ms "$(least "$3")") ms; $2: $(ms "$(least "$4")") ms; ratio $(ratio "$(least "$3")" "$(least "$4")") (due: at most $5)"
}
compared "1,000 tasks by the program" "by a bare loop" tasks floor-times 1.3
echo "the same, 4 at once: $(ms "$(least four)") ms"
compared "1,000 tasks resumed" "run by 4 workers" resumed four 0.1
compared "1,000 tasks on the lane" "by a bare loop" lane floor-times 1.25
echo "of these, 1,000 digests of outputs: $(ms "$(least digests)") ms"
compared "1,000 staged files" "500" staged staged-half 2.2
compared "1,000 outputs" "500" outputs outputs-half 2.2
compared "storing 256 MiB" "reading and digesting them" store digest 1.1
compared "200 children with 512 MiB held" "with none" held none-held 1.1
# shellcheck disable=SC3045 # dash, bash and busybox have it
if (ulimit -v 16384 && anew benched store 1) >/dev/null; then
    echo "storing 256 MiB takes less than 16 MiB of memory"
else
    echo "storing 256 MiB takes more than 16 MiB of memory"
fi
