// Trying again: a task that fails is run up to three times more. The script sees which attempt it is.
process FETCH {
    errorStrategy 'retry'
    maxRetries 3
    input:
    val name
    val ready_at
    output:
    tuple val name, stdout
    script:
    """
    if [ ${task.attempt} -lt ${ready_at} ]; then
        exit 75
    fi
    printf 'attempt %s of %s' ${task.attempt} ${task.process}
    """
}

workflow {
    FETCH(channel.of('wren', 'robin'), 3).view { name, text -> "${name}: ${text}" }
}
