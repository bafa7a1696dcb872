// A process over a channel: each item is a task.
process GREET {
    input:
    val name
    output:
    stdout
    script:
    "printf 'hello, %s' ${name}"
}

workflow {
    GREET(channel.of('wren', 'robin', 'wren')).view()
}
