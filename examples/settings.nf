// Parameters with defaults. On the command line --shout and --times 3 replace them, and so does a parameter file.
params.names = ['wren', 'robin']

params.times = 2

params.shout = false

process GREET {
    input:
    val name
    val greeting
    output:
    stdout
    script:
    def calls = (1..params.times).collect { "${greeting}, ${name}" }
    """
    printf '%s' '${calls.join("; ")}'
    """
}

workflow {
    if (params.shout) {
        greeting = 'HELLO'
    } else {
        greeting = params.greeting ?: 'hello'
    }
    GREET(channel.fromList(params.names), greeting).view()
}
