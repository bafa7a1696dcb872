// Two tasks publish two contents at one path. Which of them would stay depends on which task ended last, so the run ends,
// and nothing is copied.
process WRITE {
    publishDir 'results'
    input:
    val word
    output:
    path 'word.txt'
    script:
    """
    printf '%s' ${word} > word.txt
    """
}

workflow {
    WRITE(channel.of('wren', 'robin'))
}
