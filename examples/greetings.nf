// A workflow with a name, which takes a channel and emits two, called by a pipe. Its process runs under the path
// SHOUTED:UPPER.
process UPPER {
    input:
    val word
    output:
    stdout
    script:
    """
    printf '%s' ${word} | tr a-z A-Z
    """
}

workflow SHOUTED {
    take:
    words
    main:
    words | UPPER | map { "${it}!" } | set { loud }
    emit:
    loud
    number = loud.count()
}

workflow {
    channel.of('wren', 'robin') | SHOUTED
    SHOUTED.out.loud | view
    SHOUTED.out.number.view { "${it} words" }
}
