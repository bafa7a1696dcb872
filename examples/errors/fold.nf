// A difference depends on the order of the items, so reduce doesn't take it.
workflow {
    channel.of(3, 1, 2).reduce { a, b -> a - b }.view()
}
