#!/bin/sh
# Times the built program on a script of about 524,288 and of about 1,048,576 bytes: reading alone, by a last token that ends in `Unexpected`, and
# `fmt`, which reads and prints. The scripts are statements, one list, and processes.
# Prints both times, each the least of ten runs, and their ratio.
# shellcheck source=bench/common.sh
. "$(dirname "$(readlink -f "$0")")/common.sh"
find_program

# so many parts of a kind, as a script
script() {
    awk -v kind="$1" -v count="$2" 'BEGIN {
        if (kind == "statements") {
            print "workflow {"
            for (i = 0; i < count; i++) print "x = f(1 + 2 * 3, y: [\"a$b\", c ? d : e]) { g, h -> g.i ?: h }"
            print "}"
        }
        if (kind == "items") {
            printf "workflow { x = ["
            for (i = 0; i < count; i++) printf "a, "
            print "] }"
        }
        if (kind == "processes")
            for (i = 0; i < count; i++) print "process P { cpus 2\ninput: val x\noutput: tuple val(x), stdout, emit: y\nscript: \"echo $x\" }"
    }'
}

# runs the program, whatever its status
any() {
    "$program" "$@" 2>&1 || true
}

# what is compared is timed in turn, so that a slow moment of the machine meets all
while read -r kind count; do
    script "$kind" $((count / 2)) >"$folder/once.nf"
    script "$kind" "$count" >"$folder/twice.nf"
    for size in once twice; do
        { cat "$folder/$size.nf"; echo '}'; } >"$folder/$size.broken.nf"
    done
    for _ in $(seq 10); do
        for size in once twice; do
            timed any run "$folder/$size.broken.nf" >>"$folder/read.$size"
            grep -q Unexpected "$folder/printed"
            timed any fmt "$folder/$size.nf" >>"$folder/fmt.$size"
            if grep -q '^error: ' "$folder/printed"; then
                cat "$folder/printed" >&2
                exit 1
            fi
        done
    done
    for command in read fmt; do
        once=$(least "$command.once")
        twice=$(least "$command.twice")
        rm "$folder/$command.once" "$folder/$command.twice"
        bytes=$(wc -c <"$folder/twice.nf")
        echo "$command, $kind: $bytes bytes: $(ms "$twice") ms, half as many: $(ms "$once") ms, ratio $(ratio "$twice" "$once") (due: at most 2.5)"
    done
done <<END
statements 16000
items 349000
processes 10000
END
