# Prints how many crates are done, a colon, and a line on which are being proved and about how long is left. Reads, told apart by `kind`: when each crate
# began (written here as well, to the file `begun`), the seconds that each cost when last measured, the crates, each after those that it needs, and what
# `rt all check` printed so far. What is left is the longest chain of crates, or the work of all by the processors, whichever is longer.
kind == "begun" { began[$1] = $2 }
kind == "costs" && $1 !~ /^#/ && $2 > 0 { cost[$1] = $2; sum += $2; costs++ }
kind == "crates" { name = $1; sub(/:$/, "", name); order[++count] = name; needs[name] = $0 }
kind == "log" && /^== [A-Za-z0-9_]+$/ { proved[$2] = 1 }

# the longest time to the end of a crate that it needs, or -1 where all those are proved
function wait_for(name, words, i, longest) {
    longest = -1
    for (i = split(needs[name], words, /[: ]+/); i > 1; i--)
        if (words[i] in ends && ends[words[i]] > longest) longest = ends[words[i]]
    return longest
}

# the seconds that a crate still takes, which began at some time or not yet
function rest(name, seconds) {
    seconds = (name in cost) ? cost[name] : (costs ? sum / costs : 60)
    if (!(name in began)) return seconds
    return seconds > now - began[name] ? seconds - (now - began[name]) : seconds / 20
}

function about(seconds) {
    if (seconds < 45) return "less than a minute"
    if (seconds < 90) return "about a minute"
    return "about " int(seconds / 60 + 0.5) " minutes"
}

END {
    for (i = 1; i <= count; i++) {
        name = order[i]
        if (name in proved) { number++; continue }
        waits = wait_for(name)
        if (waits < 0 && running < lanes) {
            if (!(name in began)) { began[name] = now; print name, now >> begun }
            names = names (names ? ", " : "") name
            running++
        }
        if (waits < 0) waits = 0
        ends[name] = waits + rest(name)
        total += rest(name)
        if (ends[name] > left) left = ends[name]
    }
    if (total / processors > left) left = total / processors
    if (!names) names = "the last"
    printf "%d:pasmovuk: %d of %d crates done, %s left; now %s\n", number, number, count, about(left), names
}
