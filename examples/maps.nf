// Maps as items: a map keeps its pairs in the order of its keys.
workflow {
    channel.of([b: [], a: 1], [:]).map { it }.view()
}
