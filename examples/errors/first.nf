// The first item of a queue depends on which task ended first, so the script isn't accepted.
workflow {
    channel.of(3, 1, 2).first().view()
}
