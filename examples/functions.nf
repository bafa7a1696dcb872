// Functions, which see their parameters alone, and closures, which also see the names around them.
def bases(dna) {
    (0..dna.size() - 1).collect { i -> dna.substring(i, i + 1) }
}

def complement(dna) {
    def other = [A: 'T', C: 'G', G: 'C', T: 'A']
    bases(dna).collect { other[it] ?: 'N' }.reverse().join('')
}

def gc_percent(dna) {
    def found = bases(dna).findAll { it in ['C', 'G'] }
    (100 * found.size()).intdiv(dna.size())
}

workflow {
    limit = 50
    channel.of('GATTACA', 'CCGN', 'GGC').map { dna ->
        def gc = gc_percent(dna)
        [gc, complement(dna), gc > limit ? 'rich' : 'poor']
    }.view { gc, other, kind -> "${other}: ${gc} percent, ${kind}" }
}
