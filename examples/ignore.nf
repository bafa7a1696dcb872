// Going on after a failure: a task that fails emits nothing, and the run goes on. A join finds what is missing then.
process HALVE {
    errorStrategy 'ignore'
    input:
    val n
    output:
    tuple val n, stdout
    script:
    """
    test \$(( ${n} % 2 )) -eq 0
    printf '%s' \$(( ${n} / 2 ))
    """
}

workflow {
    numbers = channel.of(1..6)
    HALVE(numbers)
    HALVE.out.view { n, half -> "half of ${n} is ${half}" }
    all = numbers.map { [it] }.join(HALVE.out, remainder: true)
    failed = all.filter { n, half -> half == null }
    failed.map { n, half -> n }.collect().view { "failed: ${it}" }
}
