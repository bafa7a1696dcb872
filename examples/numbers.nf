// A closure over a channel of numbers.
workflow {
    channel.of(3, 1, 2).map { it * 10 }.view()
}
