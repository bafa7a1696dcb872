#!/bin/sh
# Times the built program on large runs without tasks: 400,000 distinct items, and the join of 150,000 pairs with themselves, beside python3 with a set
# and a dict; and on half as many. Then on lowering a script of 20,000 statements, and one of half as many. Prints the times, each the least of three
# runs, their ratios, and how much memory the runs took.
# shellcheck source=bench/common.sh
. "$(dirname "$(readlink -f "$0")")/common.sh"
find_program

unique() {
    echo "workflow { channel.of(1..$1).unique().count().view() }"
}

join() {
    printf 'workflow {\n    a = channel.of(1..%s).map { [it, it] }\n    a.join(a).count().view()\n}\n' "$1"
}

# so many statements, of 52 bytes each
statements() {
    awk -v count="$1" 'BEGIN {
        print "workflow {"
        for (i = 0; i < count; i++) printf "  x%05d = [1 + 2, \"a%05d$projectDir\", [b: %05d]]\n", i, i, i
        print "}"
    }'
}

python_unique='import sys; print(len(set(range(1, int(sys.argv[1]) + 1))))'
python_join='import sys; d = {i: (i, i) for i in range(1, int(sys.argv[1]) + 1)}; print(len([(k, v[1], d[k][1]) for k, v in d.items() if k in d]))'

cd "$folder"
compare() {
    "$1" "$2" >whole.nf
    "$1" $(($2 / 2)) >half.nf
    for _ in 1 2 3; do
        timed "$program" run whole.nf >>"$1.whole"
        timed "$program" run half.nf >>"$1.half"
        timed python3 -c "$3" "$2" >>"$1.python"
    done
    memory=$(/usr/bin/time -f %M "$program" run whole.nf 2>&1 >/dev/null | tail -n 1)
    echo "$1 of $2: $(ms "$(least "$1.whole")") ms, $((memory / 1024)) MiB (due: less than 1024); python3: $(ms "$(least "$1.python")") ms;" \
        "ratio $(ratio "$(least "$1.whole")" "$(least "$1.python")") (due: at most 12);" \
        "half as many: $(ratio "$(least "$1.half")" "$(least "$1.whole")") (due: at least 0.45)"
}

compare unique 400000 "$python_unique"
compare join 150000 "$python_join"

statements 20000 >whole.nf
statements 10000 >half.nf
for _ in 1 2 3; do
    timed "$program" run whole.nf >>lower.whole
    timed "$program" run half.nf >>lower.half
done
echo "lowering $(wc -c <whole.nf) bytes: $(ms "$(least lower.whole)") ms, half as many: ratio $(ratio "$(least lower.whole)" "$(least lower.half)") (due: at most 2.2)"
