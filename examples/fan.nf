// Fan-out and fan-in: a file is split into pieces, each piece is a task of its own, and one task puts their results
// together. The collected files are in the order of their names, whichever task was first.
process SPLIT {
    input:
    path text
    output:
    path 'piece_*'
    script:
    """
    split -l 2 ${text} piece_
    """
}

process SHOUT {
    input:
    path piece
    output:
    path "${piece}.loud"
    script:
    """
    tr a-z A-Z < ${piece} > ${piece}.loud
    """
}

process JOIN {
    input:
    path pieces
    output:
    stdout
    script:
    """
    cat ${pieces}
    """
}

workflow {
    SPLIT(file("${projectDir}/data/birds.txt"))
    SHOUT(SPLIT.out.flatten())
    JOIN(SHOUT.out.collect())
    JOIN.out.map { it.trim() }.view()
}
