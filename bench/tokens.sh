#!/bin/sh
# Times reading the tokens of a text of about 524,288 and of about 1,048,576 bytes: names and line ends; holes that open inside each
# other; brackets that do; strings, templates and comments.
# Prints both times, each the least of 40 runs, and their ratio.
# shellcheck source=bench/common.sh
. "$(dirname "$(readlink -f "$0")")/common.sh"
find_bench nf_bench

# what is read, and how often it stands in a whole text; the two lengths are timed in turn, so that a slow moment of the machine meets both
while read -r operation count; do
    for _ in $(seq 40); do
        benched "$operation" $((count / 2)) >>"$folder/$operation.once"
        benched "$operation" "$count" >>"$folder/$operation.twice"
    done
    once=$(least "$operation.once")
    twice=$(least "$operation.twice")
    echo "$operation: $(ms "$once") ms, twice as many bytes: $(ms "$twice") ms, ratio $(ratio "$twice" "$once") (due: at most 2.5)"
done <<END
lex-names 131072
lex-holes 349524
lex-brackets 349524
lex-strings 43690
END
