// A function that the program adds: zeroPad.
workflow {
    channel.of(7).map { zeroPad(it, 3) }.view()
}
