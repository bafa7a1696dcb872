// Two queues as inputs of one process: refused, since which items meet depends on their order.
process PAIR {
    input:
    val left
    val right
    output:
    stdout
    script:
    "printf '%s-%s' ${left} ${right}"
}

workflow {
    PAIR(channel.of(1, 2), channel.of(3, 4)).view()
}
