// By sample: files are grouped by the sample in their names, and joined with what is known of each sample.
process LENGTH {
    input:
    tuple val sample, path lanes, val site
    output:
    tuple val sample, val site, stdout
    script:
    """
    cat ${lanes} | tr -d '\\n' | wc -c | tr -d ' \\n'
    """
}

workflow {
    lanes = channel.fromPath("${projectDir}/data/lanes/*.txt")
    by_sample = lanes.map { f -> [f.simpleName.tokenize('_')[0], f] }.groupTuple()
    by_sample.view { sample, files -> "${sample} has ${files}" }
    sites = channel.of(['wren', 'Oslo'], ['robin', 'Bergen'])
    LENGTH(by_sample.join(sites))
    LENGTH.out.view { sample, site, bases -> "${sample} of ${site}: ${bases} bases" }
}
