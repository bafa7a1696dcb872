// Routes: branch sends each item to the first label that is true, and multiMap makes a channel for each label.
workflow {
    sizes = channel.of(3, 250, 40, 1200)
    sizes.branch { n ->
        small: n < 10
        medium: n < 1000
        large: true
    }.set { by_size }
    by_size.small.view { "small: ${it}" }
    by_size.medium.view { "medium: ${it}" }
    by_size.large.view { "large: ${it}" }
    made = sizes.multiMap { n ->
        halves: n.intdiv(2)
        texts: zeroPad(n, 5)
    }
    made.halves.sum().view { "sum of the halves: ${it}" }
    made.texts.collect().view()
}
