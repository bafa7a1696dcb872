#!/bin/sh
# Times nothing. Runs three scripts by the built program, each with every allocation of the program refused in turn: a channel that is mapped, a process of
# two equal items, and paired reads. Such a run has to end with the script's own report, or with status 5 and nothing printed. Then the same script is run
# with `-resume` and nothing refused, and has to print its report. Prints how many runs there were and how they ended, and each run that ended otherwise;
# the status is 1 where there was one. Words are the names of the scripts to run: map, equal, pairs; without words all three are.
# shellcheck disable=SC2016 # what stands in single quotes is of scripts
# shellcheck source=bench/common.sh
. "$(dirname "$(readlink -f "$0")")/common.sh"
find_program
cc -O2 -shared -fPIC -o "$folder/refuse.so" "$top/bench/refuse.c"
cd "$folder"

cat >map.nf <<'END'
workflow { channel.of(3, 1, 2).map { it * 10 }.view() }
END
cat >equal.nf <<'END'
process P {
  input:
  val x
  output:
  stdout
  script:
  "printf $x"
}
workflow {
  P(channel.of('a', 'a')).view()
}
END
cat >pairs.nf <<'END'
#!/usr/bin/env nextflow
nextflow.enable.dsl=2
params.reads = 'data/*_{1,2}.fq'
process JOINED {
    tag "$id"
    cpus 2
    memory '4 GB'
    container 'quay.io/biocontainers/coreutils'
    input:
    tuple val(id), path(reads)
    output:
    tuple val(id), path("${id}.txt")
    script:
    """
    cat $reads > ${id}.txt
    """
}
process SUMMARY {
    input:
    path counts
    output:
    stdout
    script:
    """
    cat $counts
    """
}
workflow {
    pairs = channel.fromFilePairs(params.reads, checkIfExists: true)
    JOINED(pairs)
    SUMMARY(JOINED.out.map { id, f -> f }.collect())
    SUMMARY.out.view()
}
END
mkdir data
printf a >data/s1_1.fq
printf bc >data/s1_2.fq
printf hel >data/s2_1.fq
printf lo >data/s2_2.fq
: >data/s3_1.fq

# the reports, without the line on how many tasks were started
printf '10\n20\n30\n' >map.due
printf 'a\na\n' >equal.due
printf 'abchello\n' >pairs.due

# whether the file `printed` is this script's report, and tasks of this number were started or taken from records
is_report() {
    head -n -1 printed | cmp -s - "$1.due" &&
        tail -n 1 printed | awk -v tasks="$2" '{ exit !($1 == "executed" && $3 == "cached" && $2 + $4 == tasks) }'
}

# a run with an allocation refused, of this script with so many tasks; says how it ended
refused_run() {
    rm -rf work
    status=0
    timeout 20 env REFUSED="$3" LD_PRELOAD="$folder/refuse.so" "$program" run "$1.nf" -queue-size 1 >printed 2>said || status=$?
    if [ "$status" = 0 ] && is_report "$1" "$2"; then
        ended='its report'
    elif [ "$status" = 5 ] && [ ! -s printed ]; then
        ended='want of memory'
    else
        ended="otherwise: allocation $3 of $1: status $status, $(head -c 100 printed | tr '\n' '|') $(head -c 100 said | tr '\n' '|')"
    fi
    status=0
    "$program" run "$1.nf" -resume >printed 2>said || status=$?
    if [ "$status" != 0 ] || ! is_report "$1" "$2"; then
        ended="otherwise: resumed after allocation $3 of $1: status $status, $(head -c 100 printed | tr '\n' '|')"
    fi
    echo "$ended"
}

# how many tasks a script has
tasks_of() {
    case $1 in
    map) echo 0 ;;
    equal) echo 2 ;;
    pairs) echo 3 ;;
    esac
}

[ $# -gt 0 ] || set -- map equal pairs
for name in "$@"; do
    tasks=$(tasks_of "$name")
    rm -rf work
    COUNTED=$folder/count LD_PRELOAD="$folder/refuse.so" "$program" run "$name.nf" -queue-size 1 >printed
    is_report "$name" "$tasks"
    count=$(cat count)
    for number in $(seq "$count"); do
        refused_run "$name" "$tasks" "$number"
    done >ends
    echo "$name: $count allocations: $(grep -cx 'its report' ends || true) ended with its report, $(grep -cx 'want of memory' ends || true) with want of memory"
    grep '^otherwise' ends || true
    cat ends >>all
done
! grep -q '^otherwise' all
