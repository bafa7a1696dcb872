// Totals over a channel. Each is a value channel with one item, which doesn't depend on the order of the items.
workflow {
    counts = channel.of(12, 5, 40, 5)
    counts.count().view { "count ${it}" }
    counts.sum().view { "sum ${it}" }
    counts.min().combine(counts.max()).view { least, most -> "from ${least} to ${most}" }
    counts.reduce(30) { a, b -> Math.max(a, b) }.view { "greatest, at least 30: ${it}" }
    counts.map { it > 10 }.reduce { a, b -> a || b }.view { "one above 10: ${it}" }
    counts.unique().toSortedList().view { "distinct ${it}" }
    counts.collect { it * 2 }.view { "doubled ${it}" }
    counts.filter { it > 100 }.ifEmpty('none above 100').view()
    counts.unique().combine(channel.of('a', 'b')).count().view { "pairs ${it}" }
}
