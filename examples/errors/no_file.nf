// A path without a pattern in it has to be there.
workflow {
    channel.fromPath('none.txt').view()
}
