// Several outputs with names. The second may be missing, and emits nothing then.
process JUDGE {
    input:
    tuple val name, val score
    output:
    path "${name}.score", emit: scores
    path "${name}.award", emit: awards, optional: true
    val score > 5, emit: verdicts
    script:
    """
    printf '%s' ${score} > ${name}.score
    if [ ${score} -gt 5 ]; then
        printf 'gold' > ${name}.award
    fi
    """
}

process LIST {
    input:
    path scores
    path awards
    output:
    stdout
    script:
    """
    echo ${scores} and ${awards}
    """
}

workflow {
    JUDGE(channel.of(['wren', 9], ['robin', 4], ['finch', 6]))
    JUDGE.out.awards.view { "award: ${it.simpleName}" }
    JUDGE.out.verdicts.filter(true).count().view { "above 5: ${it}" }
    LIST(JUDGE.out.scores.collect(), JUDGE.out.awards.collect()).map { it.trim() }.view()
}
