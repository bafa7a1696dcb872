// A task that fails ends the run, and is named with its inputs.
process CHECK {
    input:
    val limit
    output:
    stdout
    script:
    "test 2 -gt ${limit} || { echo ${limit} is too large >&2; exit 1; }; printf 'within %s' ${limit}"
}

workflow {
    CHECK(channel.of(1, 2, 0)).view()
}
