// An item that a closure can't take: the text twelve is no number.
workflow {
    channel.of('7', 'twelve').map { text -> text.toInteger() + 1 }.view()
}
