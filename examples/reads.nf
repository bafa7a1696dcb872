// Paired reads: the files come in pairs, by the sample in their names. Each pair is a task, and one task more puts
// their results together. The reads of finch have no second file, so they are left out.
params.reads = "${projectDir}/data/reads/*_{1,2}.fq"

process COUNT {
    tag "${sample}"
    cpus 2
    memory '1 GB'
    input:
    tuple val sample, path reads
    output:
    tuple val sample, path "${sample}.txt"
    script:
    """
    cat ${reads} | grep -c '^@' > ${sample}.txt
    """
}

process SUMMARY {
    input:
    path counts
    output:
    stdout
    script:
    '''
    for f in *.txt; do
        printf "%s: %s\\n" "${f%.txt}" "$(cat "$f")"
    done
    '''
}

workflow {
    pairs = channel.fromFilePairs(params.reads, checkIfExists: true)
    COUNT(pairs)
    SUMMARY(COUNT.out.map { sample, counts -> counts }.collect())
    SUMMARY.out.map { it.trim() }.view()
}
