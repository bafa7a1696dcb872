// A closure over a channel. The lines are sorted, whatever the order of the items.
workflow {
    channel.of(4, 1, 3, 2).map { it * it - 10 }.view()
}
