// A key that stands twice on one side of a join ends the run.
workflow {
    reads = channel.of(['wren', 1], ['wren', 2], ['robin', 3])
    sites = channel.of(['wren', 'Oslo'], ['robin', 'Bergen'])
    reads.join(sites).view()
}
