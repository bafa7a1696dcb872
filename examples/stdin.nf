// Standard input: the item's text is what the script reads. A process may have its whole script in one string.
process SORTED {
    input:
    stdin
    output:
    stdout
    "tr ' ' '\\n' | sort -r | tr '\\n' ' '"
}

workflow {
    SORTED(channel.of('wren robin finch', 'b c a', 7)).map { it.trim() }.view()
}
