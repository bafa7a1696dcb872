// Another spelling of the same: Channel, main: and a closure between parentheses.
workflow {
    main:
    Channel.of(3, 1, 2).map({ (it + 1) * 10 }).view()
}
