#!/bin/sh
# Runs two small rows of flows with each allocation of the program refused in turn, and prints how many of these runs ended in which way: with the rows' own
# reports, with a flow that was stopped for want of memory, or with an error of the program itself. A run that ends in any other way is printed, and none should.
# shellcheck source=bench/common.sh
. "$(dirname "$(readlink -f "$0")")/common.sh"
find_bench cases_schedules
cc -O2 -shared -fPIC -o "$folder/refuse.so" "$top/bench/refuse.c"

cat >"$folder/rows" <<'END'
row all: one item through a closure
node source 1
node map 0
node view 1
answer 1: 1 -> 10

row all: a task is tried again, in a run that is resumed
node source "q"
node process 0
node view 1
resumed
errors 1: retry 1
report 1: ["q"] #0 -> exit 3 / "a2"
END

COUNTED="$folder/count" LD_PRELOAD="$folder/refuse.so" "$bench" <"$folder/rows" >/dev/null
for number in $(seq "$(cat "$folder/count")"); do
    status=0
    REFUSED="$number" LD_PRELOAD="$folder/refuse.so" "$bench" <"$folder/rows" >"$folder/printed" 2>/dev/null || status=$?
    others=$(grep '^=> ' "$folder/printed" | grep -cvxE '=> (2: \[(10|a2)\]|stop: Mem)' || true)
    if [ "$status" -gt 1 ] || [ "$others" -gt 0 ]; then
        echo "allocation $number: status $status"
    elif [ "$status" -eq 1 ]; then
        echo "error of the program"
    elif grep -qx '=> stop: Mem' "$folder/printed"; then
        echo "stopped for want of memory"
    else
        echo "own reports"
    fi
done | sort | uniq -c
