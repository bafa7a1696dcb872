// A channel where a value is wanted: an if is decided before the run, when no channel has items yet.
workflow {
    reads = channel.of(1, 2, 3)
    if (reads.count() > 2) {
        reads.view()
    }
}
