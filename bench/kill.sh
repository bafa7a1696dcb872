#!/bin/sh
# Times nothing. Kills the built program 200 times at some moment of a run of 60 tasks with real children, and resumes each run. A resumed run has to print
# the fresh run's report, and to start no task whose record was whole when the program was killed. Prints how many runs there were, how many tasks were
# kept and how many were run again, and ends with status 1 at the first run that doesn't go on as it should.
# shellcheck source=bench/common.sh
. "$(dirname "$(readlink -f "$0")")/common.sh"
find_program

cd "$folder"
awk 'BEGIN {
    print "process P { input: val x; output: stdout; script: \"printf $x\" }"
    printf "workflow { P(channel.of("
    for (i = 0; i < 60; i++) printf "%s%d", (i ? ", " : ""), i
    print ")).view() }"
}' >kill.nf
"$program" run kill.nf | head -n 60 >fresh
# the moments: all of a run's time, of 1 to 40 thousandths of a second
moments=$(awk 'BEGIN { srand(7); for (i = 0; i < 200; i++) printf "0.%03d ", 1 + int(rand() * 40) }')

kept=0
again=0
runs=0
for moment in $moments; do
    rm -rf work
    "$program" run kill.nf >/dev/null 2>&1 &
    child=$!
    sleep "$moment"
    kill -9 "$child" 2>/dev/null || true
    wait "$child" 2>/dev/null || true
    # a record that is being written has another name until it is whole
    records=$(find work/.cache -type f -name '????????????????????????????????????????????????????????????????' 2>/dev/null | wc -l)
    "$program" run kill.nf -resume >resumed
    started=$(tail -n 1 resumed | cut -d ' ' -f 2)
    taken=$(tail -n 1 resumed | cut -d ' ' -f 4)
    if ! head -n 60 resumed | cmp -s - fresh || [ "$taken" -lt "$records" ] || [ $((started + taken)) != 60 ]; then
        echo "a run that was killed after $moment s with $records records went on otherwise: $(tail -n 1 resumed)" >&2
        exit 1
    fi
    runs=$((runs + 1))
    kept=$((kept + taken))
    again=$((again + started))
done
echo "$runs runs of 60 tasks were killed and resumed: $kept tasks were kept, and $again were run again"
