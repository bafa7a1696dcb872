// A task that leaves no file for its output fails, and ends the run.
process WRITE {
    input:
    val name
    output:
    path "${name}.txt"
    script:
    """
    printf '%s' ${name} > ${name}.text
    """
}

workflow {
    WRITE(channel.of('wren')).view()
}
