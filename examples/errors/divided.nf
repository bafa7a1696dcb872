// An item that a closure can't map ends the run, and is named.
workflow {
    channel.of(1, 0).map { 10.intdiv(it) }.view()
}
