// A name that nothing defines is found before any task runs.
process COUNT {
    input:
    val x
    output:
    stdout
    script:
    "printf '%s' ${y}"
}

workflow {
    COUNT(channel.of(1, 2)).view()
}
