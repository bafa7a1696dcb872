// Files as items: a closure sees their names and the parts of these, and a task what they hold.
process LINES {
    input:
    path input
    output:
    tuple path input, stdout
    script:
    """
    grep -c '' ${input} | tr -d '\\n'
    """
}

workflow {
    birds = channel.fromPath("${projectDir}/data/*.txt")
    lanes = channel.fromPath("${projectDir}/data/lanes/*_L{1,2}.txt", checkIfExists: true)
    all = birds.mix(lanes)
    all.view { f -> "${f.name}: ${f.baseName} and ${f.extension}" }
    LINES(all).view { f, lines -> "${f} has ${lines} lines" }
    channel.fromPath("${projectDir}/data/*.none").ifEmpty('no such file').view()
}
