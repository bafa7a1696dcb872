#!/bin/sh
# Runs the built program on scripts, words, files and tasks that mean it ill, each in a folder of its own. Prints a line a case: whether the program ended
# with the status that is due and printed what is due, in less than 5 s of processor time and with less than 1 GB of memory, and whether it wrote no file
# but those in the work directory, the targets that the script names and the files that options name. For this all that stands around is listed before and
# after each case, with sizes and digests. The last line has counts; the status is 1 where a case isn't as it is due.
# shellcheck disable=SC2016 # what stands in single quotes is of scripts and tasks
# shellcheck source=bench/common.sh
. "$(dirname "$(readlink -f "$0")")/common.sh"
find_program

# a program of its own, that a task may find, and that another user may run
cp "$program" "$folder/pasmovuk"
chmod 755 "$folder" "$folder/pasmovuk"
program=$folder/pasmovuk

around=$folder/around
here=$around/parent/here
seconds=5
kilobytes=1000000
# so long a case may take by the clock, which a busy machine needs
patience=40

abc=ba7816bf8f01cfea414140de5dae2223b00361a396177a9cb410ff61f20015ad
hello=2cf24dba5fb0a30e26e83b2ac5b9e29e1b161e5c1fa7425e73043362938b9824

right=0
wrong=0
written=0
user=
may_write='^$'
or_status=
or_text=

# ---- cases

# makes the folder in which the next cases run, and what stands around it
fresh() {
    cd /
    rm -rf "$around"
    mkdir -p "$here/in" "$around/parent/beside" "$around/home" "$around/tmp"
    echo kept >"$around/parent/file"
    echo kept >"$around/parent/beside/file"
    echo kept >"$around/home/.profile"
    printf abc >"$here/in/plain"
    cd "$here"
}

# all that stands around the work directory, but for what this case may write: kinds, names, sizes and digests
listing() {
    (
        cd "$around"
        find . -path ./parent/here/work -prune -o -type f -exec stat -c '%s bytes: %n' {} + -exec sha256sum {} +
        find . -path ./parent/here/work -prune -o ! -type f -printf '%y: %p\n'
    ) | LC_ALL=C sort | grep -vE -- "$may_write" || true
}

# whether the program ended with this status and printed this: line ends are `|`, and `...` at the end is any further text
is_due() {
    [ "$status" = "$1" ] || return 1
    case $2 in
    *...)
        case $shown in
        "${2%...}"*) return 0 ;;
        esac
        return 1
        ;;
    esac
    [ "$shown" = "$2" ]
}

# a case: its name, the status and the text that are due, and the words of the program. Where two answers are right, `or_status` and `or_text` have the other.
try() {
    name=$1
    due_status=$2
    due_text=$3
    shift 3
    listing >"$folder/before"
    status=0
    # shellcheck disable=SC2086,SC3045 # the user is words; dash, bash and busybox have these limits
    (
        ulimit -t "$seconds"
        ulimit -v 6291456
        HOME=$around/home TMPDIR=$around/tmp exec /usr/bin/time -q -o "$folder/cost" -f '%U %S %M' timeout "$patience" $user "$program" "$@"
    ) >"$folder/printed" 2>"$folder/said" || status=$?
    listing >"$folder/after"
    judge
    or_status=
    or_text=
}

# says what came of the case
judge() {
    shown=$(head -c 300 "$folder/printed" | tr '\n' '|' | tr -d '\000')
    took=$(tail -n 1 "$folder/cost" | awk '{ printf "%.2f s, %d MB", $1 + $2, $3 / 1000 }')
    fault=
    if ! is_due "$due_status" "$due_text" && ! { [ -n "$or_status" ] && is_due "$or_status" "$or_text"; }; then
        fault="status $status «$(echo "$shown" | head -c 100)», due: status $due_status «$(echo "$due_text" | head -c 100)»"
    fi
    case $status in
    124) fault="$fault; it didn't end" ;;
    137) fault="$fault; it took too long" ;;
    139) fault="$fault; it crashed" ;;
    esac
    if [ "$status" != 137 ] && tail -n 1 "$folder/cost" | awk -v seconds="$seconds" '{ exit $1 + $2 < seconds }'; then
        fault="$fault; it took too long"
    fi
    if tail -n 1 "$folder/cost" | awk -v kilobytes="$kilobytes" '{ exit $3 < kilobytes }'; then
        fault="$fault; too much memory"
    fi
    if ! cmp -s "$folder/before" "$folder/after"; then
        fault="$fault; written: $(LC_ALL=C comm -3 "$folder/before" "$folder/after" | tr -s '\t\n' ' ' | head -c 300)"
        written=$((written + 1))
    fi
    told "$fault" "$took"
}

# a line for a case, and its count
told() {
    if [ -z "$1" ]; then
        right=$((right + 1))
        echo "right: $name ($2)"
    else
        wrong=$((wrong + 1))
        echo "WRONG: $name ($2): ${1#; }"
    fi
}

# a case that asks for something else: its name, and a command that has to succeed
also() {
    name=$1
    shift
    if "$@" >/dev/null 2>&1; then
        told '' 'after it'
    else
        told "not so: $*" 'after it'
    fi
}

# whether there is no such file
is_absent() {
    [ ! -e "$1" ]
}

# whether a file holds this text
holds() {
    [ "$(cat "$1")" = "$2" ]
}

# ---- scripts

# a text so many times
repeat() {
    TEXT=$1 awk -v count="$2" 'BEGIN { text = ENVIRON["TEXT"]; for (i = 0; i < count; i++) printf "%s", text }'
}

# the script of the next cases
script() {
    printf '%s' "$1" >a.nf
}

# a script of one task with this text, whose output is its standard output, or the file x
task() {
    printf "process P {\n  output: stdout\n  script: '''\n%s\n'''\n}\nworkflow { P().view() }\n" "$1" >a.nf
}
task_of_x() {
    printf "process P {\n  output: path 'x'\n  script: '''\n%s\n'''\n}\nworkflow { P().view() }\n" "$1" >a.nf
}

# brackets of so many levels, each with a chain of 255 parts before it, round a 1
nested() {
    CHAIN=$1 OPEN=$2 CLOSE=$3 awk -v levels="$4" 'BEGIN {
        for (i = 0; i < levels; i++) {
            for (k = 0; k < 255; k++) printf "%s", ENVIRON["CHAIN"]
            printf "%s", ENVIRON["OPEN"]
        }
        printf "1"
        for (i = 0; i < levels; i++) printf "%s", ENVIRON["CLOSE"]
    }'
}

# a closure over an item, whose statement stands on 40 lines
forty() {
    ITEM=$1 STATEMENT=$2 awk 'BEGIN {
        print "workflow { channel.of(" ENVIRON["ITEM"] ").map { x ->"
        for (i = 0; i < 40; i++) print ENVIRON["STATEMENT"]
        print "x.size() }.view() }"
    }' >a.nf
}

# a filter by the pattern in the file `pattern` of the text in the file `subject`
filter() {
    {
        printf "workflow { channel.of('"
        cat "$folder/subject"
        printf "').filter(~/"
        cat "$folder/pattern"
        printf "/).view() }"
    } >a.nf
}

# ---- long rows of marks

for mark in '(' '[' '{' - ! '?:'; do
    fresh
    repeat "$mark" $((1048576 / ${#mark})) >a.nf
    try "1 MiB of $mark" 3 'error: 1:1: Unexpected|' run a.nf
done
fresh
repeat '"${' 349525 >a.nf
try '1 MiB of templates in holes' 3 'error: 1:1: OpenString|' run a.nf
for mark in '(' '[' '{'; do
    fresh
    { printf 'workflow { x = '; repeat "$mark" 1048561; } >a.nf
    try "1 MiB of $mark in a body" 3 'error: 1:79: TooDeep|' run a.nf
    try "1 MiB of $mark in a body, checked" 3 'error: 1:79: TooDeep|' check a.nf
    try "1 MiB of $mark in a body, formatted" 3 'error: 1:79: TooDeep|' fmt a.nf
done
for mark in - !; do
    fresh
    { printf 'workflow { x = '; repeat "$mark" 1048561; } >a.nf
    try "1 MiB of $mark in a body" 3 'error: 1:272: TooDeep|' run a.nf
done
fresh
{ printf 'workflow { x = a'; repeat '?:a' 349520; } >a.nf
try '1 MiB of ?: in a body' 3 'error: 1:785: TooDeep|' run a.nf
{ printf 'workflow { x = a'; repeat '?a' 524280; } >a.nf
try '1 MiB of ? in a body' 3 'error: 1:529: TooDeep|' run a.nf
{ printf 'workflow { x = '; repeat '"${' 349520; } >a.nf
try '1 MiB of templates in holes in a body' 3 'error: 1:16: OpenString|' run a.nf
{ printf 'workflow { x = '; repeat '"${' 64; printf 1; repeat '}"' 64; printf ' }'; } >a.nf
try '64 templates in holes' 3 'error: 1:206: TooDeep|' run a.nf
{ printf 'workflow { x = "'; repeat '$a' 524278; printf '" }'; } >a.nf
try '1 MiB of holes' 3 'error: 1:18: UnknownName|' run a.nf
repeat '(' 1048577 >a.nf
try 'a byte past 1 MiB' 3 'error: 1:1: ScriptTooLong|' run a.nf
truncate -s 1T "$folder/long"
try 'a script of 1 TiB' 3 'error: 1:1: ScriptTooLong|' run "$folder/long"

# ---- deep within the limits: 64 brackets, 256 parts of a chain, any number of calls

fresh
{ printf 'workflow { x = '; nested '1?:' '(' ')' 62; printf ' }'; } >a.nf
try '62 brackets with 255 ?: each' 0 'executed 0 cached 0|' run a.nf
try '62 brackets with 255 ?: each, checked' 0 'accepted|' check a.nf
try '62 brackets with 255 ?: each, formatted' 0 'workflow {|    x = 1 ?: 1 ?: ...' fmt a.nf
{ printf 'workflow { channel.of(7).map { '; nested '0?:' '(' ')' 62; printf ' }.view() }'; } >a.nf
try '62 brackets with 255 ?: each in a closure' 0 '1|executed 0 cached 0|' run a.nf
{ printf 'workflow { channel.of(7).map { '; nested '-' '-(' ')' 62; printf ' }.view() }'; } >a.nf
try '62 brackets with 256 - each in a closure' 0 '1|executed 0 cached 0|' run a.nf
{ printf 'workflow { '; nested 'if (0) { x = 1 } else ' '{ ' ' }' 62; printf ' }'; } >a.nf
sed -i 's/{ 1 }/{ x = 1 }/' a.nf
try '62 braces with 255 arms each' 0 'executed 0 cached 0|' run a.nf
# a list of calls, each of the one before it
calls() {
    awk -v count="$1" -v kind="$2" 'BEGIN {
        print kind == "def" ? "def f0(x) { x }" : "workflow f0 { channel.of(1).view() }"
        for (i = 1; i < count; i++)
            if (kind == "def") printf "def f%d(x) { f%d(x) }\n", i, i - 1
            else printf "workflow f%d { f%d() }\n", i, i - 1
        if (kind == "def") printf "workflow { channel.of(1).map { f%d(it) }.view() }\n", count - 1
        else printf "workflow { f%d() }\n", count - 1
    }' >a.nf
}
for count in 1000 5000 20000; do
    calls "$count" def
    try "$count functions, each of which calls the next" 0 '1|executed 0 cached 0|' run a.nf
    calls "$count" workflow
    try "$count workflows, each of which calls the next" 0 '1|executed 0 cached 0|' run a.nf
    try "$count workflows, each of which calls the next, checked" 0 'accepted|' check a.nf
done
awk 'BEGIN {
    print "workflow A0 { channel.of(1).view() }"
    for (i = 1; i <= 40; i++) {
        printf "workflow B%d { A%d() }\n", i, i - 1
        printf "workflow A%d {\nA%d()\nB%d()\n}\n", i, i - 1, i
    }
    print "workflow { A40() }"
}' >a.nf
try 'workflows that call the next twice, 40 times' 3 'error: 1:23: TooManyNodes|' run a.nf
try 'workflows that call the next twice, 40 times, checked' 0 'accepted|' check a.nf

# ---- large values

fresh
script 'workflow { channel.of(1..9223372036854775807).view() }'
try 'a range up to the largest number' 3 'error: 1:24: ParamFault TooLarge|' run a.nf
script 'workflow { channel.of(0).map { 1..9223372036854775807 }.view() }'
try 'such a range in a closure' 1 'error: 1:33: TooLarge on 0|' run a.nf
script 'workflow { channel.of(9223372036854775807..9223372036854775806).view() }'
try 'a range of the largest two' 0 '9223372036854775806|9223372036854775807|executed 0 cached 0|' run a.nf
forty '[1]' 'x = x + x'
try 'a list that is added to itself 40 times' 1 'error: 24:7: TooLarge on [1]|' run a.nf
forty '[1]' 'x = [x, x]'
try 'a list of itself twice, 40 times' 1 'error: 22:5: TooLarge on [1]|' run a.nf
forty '[a: 1]' 'x = [a: x, b: x]'
try 'a map of itself twice, 40 times' 1 'error: 21:5: TooLarge on [a:1]|' run a.nf
forty "'ab'" 'x = x + x'
try 'a text that is added to itself 40 times' 1 'error: 24:7: TooLarge on ab|' run a.nf
forty "'ab'" 'x = "$x$x"'
try 'a template of itself twice, 40 times' 1 'error: 24:5: TooLarge on ab|' run a.nf
{ echo 'workflow { channel.of([1])'; repeat '.map { it + it }
' 40; echo '.view() }'; } >a.nf
try 'a list that 40 operators add to itself' 1 'error: 24:11: TooLarge on [1, 1, 1, ...' run a.nf
{ echo 'workflow { channel.of([1])'; repeat '.map { [it, it] }
' 40; echo '.view() }'; } >a.nf
try 'a list of itself twice by 40 operators' 1 'error: 22:8: TooLarge on [[[[[...' run a.nf
{ printf 'workflow {\n  c = channel.of(1)\n'; repeat '  c = c.mix(c)
' 40; echo '  c.count().view() }'; } >a.nf
try 'a channel that 40 operators mix with itself' 1 'error: Charge past 67108864|' run a.nf

# ---- patterns

fresh
# a pattern that the crate of patterns may find too large: the answer to it, or that
pattern() {
    repeat "$2" "$3" >"$folder/pattern"
    filter
    or_status=3
    or_text='error: 1:37: PatternTooLarge|'
    try "$1" 0 'executed 0 cached 0|' run a.nf
}
printf bbb >"$folder/subject"
pattern '1 MiB of letters as a pattern' a 1048000
pattern '1 MiB of stars as a pattern' 'a*a' 349000
pattern '1 MiB of dots as a pattern' . 1048000
pattern '1 MiB of arms as a pattern' 'ab|' 349000
pattern '1 MiB of word letters as a pattern' '\w' 524000
pattern '1 MiB of letters of all scripts as a pattern' '\pL' 349000
pattern '1 MiB of classes as a pattern' '[a-z]' 209000
pattern 'a billion letters by three counts' 'a{1000}{1000}{1000}' 1
pattern 'the largest count' 'a{4294967295}' 1
for mark in '(' '['; do
    repeat "$mark" 1048000 >"$folder/pattern"
    filter
    try "1 MiB of $mark as a pattern" 3 'error: 1:37: PatternRefused|' run a.nf
done
repeat a 400000 >"$folder/subject"
for slow in '(a+)+b' '(a|aa)+b' '(a+a+)+b' '(.*)*b' '(a?){500}(a+)*b'; do
    printf %s "$slow" >"$folder/pattern"
    filter
    try "the pattern $slow on 400,000 letters" 0 'executed 0 cached 0|' run a.nf
done
repeat a 20000 >"$folder/subject"
printf '(a{0,200}){0,200}b' >"$folder/pattern"
filter
try 'a pattern with 40,000 counts on 20,000 letters' 0 'executed 0 cached 0|' run a.nf
awk 'BEGIN {
    printf "workflow { channel.of(7).map { ["
    for (i = 0; i < 40000; i++) printf "%s\"a\" ==~ ~/a%d/", i ? ", " : "", i
    print "].size() }.view() }"
}' >a.nf
try '40,000 patterns' 0 '40000|executed 0 cached 0|' run a.nf
awk 'BEGIN {
    printf "workflow { channel.of(7).map { ["
    for (i = 0; i < 1000; i++) printf "%s\"a\" ==~ ~/\\w{90}%d/", i ? ", " : "", i
    print "].size() }.view() }"
}' >a.nf
try '1,000 patterns of 90 word letters' 0 '1000|executed 0 cached 0|' run a.nf

# ---- many nodes

fresh
{ printf 'workflow {\nc = channel.of(1)\n'; repeat 'c.view()
' 65536; echo '}'; } >a.nf
try '65,537 nodes' 3 'error: 65538:3: TooManyNodes|' run a.nf
{ printf 'workflow {\n'; repeat 'channel.of(1)
' 65537; echo '}'; } >a.nf
try '65,537 sources' 3 'error: 65538:9: TooManyNodes|' run a.nf
{ printf 'workflow {\nc = channel.of(1)\nc.mix('; repeat 'c,' 65535; echo 'c).view() }'; } >a.nf
try '65,537 channels of an operator' 3 'error: 3:3: TooManyNodes|' run a.nf
{ printf 'workflow {\nc = channel.of(1)\n'; repeat 'c.count()
' 65535; echo '}'; } >a.nf
try '65,536 nodes' 0 'executed 0 cached 0|' run a.nf
{ printf 'workflow {\nc = channel.of(1)\n'; repeat 'c = c.map { it }
' 60000; echo 'c.view() }'; } >a.nf
try 'a chain of 60,000 operators' 0 '1|executed 0 cached 0|' run a.nf
script 'workflow { channel.of(1..1900000).count().view() }'
try '1,900,000 items' 1 'error: Charge past 67108864|' run a.nf

# ---- many names and items

# so many of what `$1` prints of a number, with `$2` between them
many() {
    awk -v form="$1" -v between="$2" -v count="$3" 'BEGIN { for (i = 0; i < count; i++) { if (i) printf "%s", between; printf form, i } }'
}

fresh
{ printf 'workflow { x = ['; many 'a%d: 1' ', ' 80000; echo '] }'; } >a.nf
try 'a map of 80,000 keys' 0 'executed 0 cached 0|' run a.nf
{ echo 'workflow {'; many 'def a%d = 1' '\n' 60000; printf '\n}'; } >a.nf
try '60,000 names in a body' 0 'executed 0 cached 0|' run a.nf
try '60,000 names in a body, checked' 0 'accepted|' check a.nf
{ printf 'workflow { channel.of([1]).map { '; many 'a%d' ', ' 70000; printf ' -> 1 }.view() }'; } >a.nf
try 'a closure with 70,000 names' 1 'error: 1:32: Arity on [1]|' run a.nf
{ printf 'workflow {\nr = channel.of(1).branch { '; many 'a%d: true' '\n' 60000; printf ' }\nr.a59999.view() }'; } >a.nf
try 'a branch with 60,000 labels' 0 'executed 0 cached 0|' run a.nf
{ many 'params.a%d = 1' '\n' 50000; printf '\nworkflow { }'; } >a.nf
try 'a script with 50,000 parameters' 0 'executed 0 cached 0|' run a.nf
script 'workflow { channel.of(0).map { ((1..100000) - (100001..200000)).size() }.view() }'
try 'a list of 100,000 items without those of another' 0 '100000|executed 0 cached 0|' run a.nf
script 'workflow { channel.of(0).map { (1..200000).collect { it }.unique().size() }.view() }'
try 'the distinct items of a list of 200,000' 0 '200000|executed 0 cached 0|' run a.nf

# ---- names and paths

fresh
rm in/plain
for name in "it's" 'a"b' '$HOME' '$(touch pwned)' '`touch pwned`' 'a;touch pwned' '-rf' 'a b' '*' 'back\slash' 'two
lines'; do
    printf %s "$name" >"in/$name"
done
printf kept >"in/$(repeat n 255)"
cat >a.nf <<'END'
process P {
  input: path f
  output: tuple val(f), stdout
  script: 'cat < "$(ls)"'
}
workflow { P(channel.fromPath('in/*')).map { f, text -> text }.collect().view { it.size() } }
END
try 'staged files with quotes, marks and line ends in their names' 0 '12|executed 12 cached 0|' run a.nf
try 'the same, resumed' 0 '12|executed 0 cached 12|' run a.nf -resume
rm "in/$(repeat n 255)"
cat >a.nf <<'END'
process P {
  input: path f
  output: path 'to*'
  script: 'for name in *; do mv "./$name" "./to$name"; done'
}
workflow {
  P(channel.fromPath('in/*')).view()
  P.out.count().view()
}
END
try 'outputs with quotes, marks and line ends in their names' 0 'to$(touch pwned)|to$HOME|to*|to-rf|to`touch pwned`|toa b|toa"b|toa;touch pwned|toback\slash|toit'"'"'s|totwo|lines|11|executed 11 cached 0|' run a.nf
also 'no name was run' is_absent "$here/pwned"

fresh
# a source with this path, in quotes of the script
source_at() {
    script "workflow { channel.fromPath('$2').view() }"
    try "a source at $1" "$3" "$4" run a.nf
}
source_at 'the folder above' '..' 4 'error: HostFault|'
source_at 'a folder' 'in' 4 'error: HostFault|'
source_at 'the root' '/' 4 'error: HostFault|'
source_at 'no path' '' 3 'error: NoFile |'
source_at 'a path through a file' 'a.nf/x' 3 'error: NoFile a.nf/x|'
source_at 'a name with a dash' '-rf' 3 'error: NoFile -rf|'
source_at 'a path that goes up and down' '../here/in/../in//plain' 0 'plain|executed 0 cached 0|'
source_at 'the root by way of ..' '../../../../../../../../../../../../etc/passwd' 0 'passwd|executed 0 cached 0|'
source_at 'a pattern in the file store' 'work/.files/*' 0 'executed 0 cached 0|'
source_at 'a path with a line end' 'in/no\nfile' 3 'error: NoFile in/no|file|'
long=$(repeat a 4096)
or_status=3
or_text="error: NoFile ..."
source_at 'a path of 4,096 bytes' "$long" 4 'error: HostFault|'
or_status=0
or_text='executed 0 cached 0|'
source_at 'a pattern in a folder of 4,096 bytes' "$long/*" 4 'error: HostFault|'
or_status=3
or_text='error: NoFile ...'
source_at 'a path with a NUL' 'in/\u0000' 4 'error: HostFault|'
ln -s loop loop
or_status=3
or_text='error: NoFile loop|'
source_at 'a link to itself' loop 4 'error: HostFault|'

fresh
printf 'echo no' >in/.command.sh
printf x >in/.exitcode
cat >a.nf <<'END'
process P {
  input: path f
  output: stdout
  script: 'printf ok'
}
workflow { P(file('in/.command.sh')).view() }
END
try 'a staged file .command.sh' 1 'error: task P [.command.sh] #0: StageClash .command.sh|' run a.nf
sed -i s/.command.sh/.exitcode/ a.nf
try 'a staged file .exitcode' 1 'error: task P [.exitcode] #0: StageClash .exitcode|' run a.nf
for pattern in .command.sh .exitcode ../x /etc/passwd '../*' '.*'; do
    printf "process P {\n  output: path '%s'\n  script: 'echo 1 > ../x'\n}\nworkflow { P().view() }\n" "$pattern" >a.nf
    try "an output $pattern" 1 "error: task P [] #0: MissingOutput $pattern|" run a.nf
done
script 'process ../P { "a" }'
try 'a process name that goes up' 3 'error: 1:11: OpenString|' run a.nf
script "process '../P' { 'a' }"
try 'a process name in quotes' 3 'error: 1:9: Unexpected|' run a.nf
script 'process P..Q { "a" }'
try 'a process name with dots' 3 'error: 1:10: Unexpected|' run a.nf

# ---- tasks that mean it ill

fresh
task 'head -c 1073741824 /dev/zero'
try 'a task that prints 1 GiB' 1 'error: task P [] #0: BadStdout|' run a.nf
fresh
task 'head -c 1073741824 /dev/zero >&2; exit 3'
try 'a task that prints 1 GiB of errors' 1 'error: task P [] #0: Exit 3|' run a.nf
fresh
task 'head -c 1048577 /dev/zero'
try 'a task that prints a byte more than 1 MiB' 1 'error: task P [] #0: BadStdout|' run a.nf
task 'head -c 1048576 /dev/zero | tr "\\0" a'
try 'a task that prints 1 MiB' 0 'aaaaaaaaaa...' run a.nf
task "(sleep 3; echo late > late) & printf started"
try 'a task whose child outlives it' 0 'started|executed 1 cached 0|' run a.nf
task "(while sleep 0.01; do echo more >> more || exit; done) & printf started"
try 'a task whose child goes on writing' 0 'started|executed 1 cached 0|' run a.nf
or_status=4
or_text='error: LaneFault|'
try 'the same once more, while it writes' 0 'started|executed 1 cached 0|' run a.nf
rm -rf work
task 'kill -9 $$'
try 'a task that kills itself' 1 'error: task P [] #0: Exit 137|' run a.nf
task 'kill -9 $PPID'
try 'a task that kills the shell around it' 1 'error: task P [] #0: Exit 255|' run a.nf

fresh
task 'd=$PWD; cd ..; rm -rf "$d"; printf lost'
try 'a task that removes its folder' 0 '|executed 1 cached 0|' run a.nf
task_of_x 'd=$PWD; echo 1 > x; cd ..; rm -rf "$d"'
try 'a task that removes its folder and its output' 1 'error: task P [] #0: MissingOutput x|' run a.nf
task 'cd ../../..; rm -rf work; printf lost'
try 'a task that removes the work directory' 0 '|executed 1 cached 0|' run a.nf
try 'the same, resumed' 0 '|executed 0 cached 1|' run a.nf -resume
fresh
task_of_x 'echo 1 > x; cd ../../..; rm -rf work/.files work/.cache'
try 'a task that removes the file store and the cache' 0 'x|executed 1 cached 0|' run a.nf
try 'the same, resumed' 0 'x|executed 0 cached 1|' run a.nf -resume
fresh
task_of_x 'echo 1 > x; cd ../../..; rm -rf work/.files; : > work/.files'
try 'a task that puts a file in the place of the file store' 4 'error: LaneFault|' run a.nf
fresh
task 'cd ../../..; rm -rf work/.cache; : > work/.cache; printf a'
try 'a task that puts a file in the place of the cache' 4 'error: KeeperFault|' run a.nf
fresh
task 'mkdir -p ../../.cache/new; printf a'
try 'a task that puts a folder in the way of a record' 4 'error: KeeperFault|' run a.nf
fresh
task 'rm .command.out; mkdir .command.out'
try 'a task that makes a folder of its output' 4 'error: LaneFault|' run a.nf
task 'rm .command.out; printf lost'
try 'a task that removes its output' 0 '|executed 1 cached 0|' run a.nf
fresh
cat >a.nf <<'END'
process A {
  output: path 'x'
  script: 'printf abc > x'
}
process K {
  input: path f
  output: val f
  script: 'rm -rf ../../.files'
}
process B {
  input: path f
  output: stdout
  script: 'cat x'
}
workflow {
  A()
  K(A.out)
  B(K.out).view()
}
END
try 'a task that removes the file store before its files are staged' 4 'error: LaneFault|' run a.nf
try 'the same, resumed' 0 'abc|executed 2 cached 1|' run a.nf -resume
try 'the same, resumed once more' 0 'abc|executed 0 cached 3|' run a.nf -resume
fresh
cat >a.nf <<'END'
process A {
  output: path 'x'
  script: 'printf abc > x'
}
process K {
  input: path f
  output: val f
  script: 'for f in $(find ../../.files -type f); do printf abd > $f; done'
}
process B {
  input: path f
  output: stdout
  script: 'cat x'
}
workflow {
  A()
  K(A.out)
  B(K.out).view()
}
END
try 'a task that changes the file store before its files are staged' 4 'error: LaneFault|' run a.nf
try 'the same, resumed' 0 'abc|executed 2 cached 1|' run a.nf -resume

# pipes and links where the program writes and reads
patience=10
for name in .command.out .exitcode; do
    fresh
    task "rm -f $name; mkfifo $name; printf a"
    or_status=0
    or_text='a|executed 1 cached 0|'
    [ "$name" = .exitcode ] || or_text='|executed 1 cached 0|'
    try "a task that makes a pipe of its $name" 4 'error: LaneFault|' run a.nf
done
fresh
task_of_x 'echo 1 > x; mkfifo .command.new'
or_status=0
or_text='x|executed 1 cached 0|'
try 'a task that makes a pipe of .command.new' 4 'error: LaneFault|' run a.nf
fresh
task 'mkdir -p ../../.cache; mkfifo ../../.cache/new; printf a'
or_status=0
or_text='a|executed 1 cached 0|'
try 'a task that makes a pipe in the way of a record' 4 'error: KeeperFault|' run a.nf
patience=40
fresh
task 'rm .command.out; ln -s ../../../in/plain .command.out'
try 'a task that makes a link of its output' 0 '|executed 1 cached 0|' run a.nf
fresh
task 'ln -s ../../../escaped .exitcode; printf a'
or_status=4
or_text='error: LaneFault|'
try 'a task that makes a link of its .exitcode' 0 'a|executed 1 cached 0|' run a.nf
fresh
task_of_x 'echo 1 > x; ln -s ../../../escaped .command.new'
or_status=4
or_text='error: LaneFault|'
try 'a task that makes a link of .command.new' 0 'x|executed 1 cached 0|' run a.nf
fresh
task_of_x 'ln -s /etc/passwd x'
try 'a task whose output is a link' 1 'error: task P [] #0: MissingOutput x|' run a.nf
fresh
mkdir gone
task 'd=$PWD; printf a; cd ..; mv "$d"/.command.* ../../gone; rmdir "$d"; ln -s ../../gone "$d"'
may_write='gone/[.]command'
or_status=4
or_text='error: LaneFault|'
try 'a task that makes a link of its folder' 0 'a|executed 1 cached 0|' run a.nf
may_write='^$'
fresh
mkdir gone
task 'd=$PWD; printf a; u=${d%/*}; cd ../..; mv "$u" ../gone/up; ln -s "$PWD/../gone/up" "$u"'
may_write='gone/up(/[0-9a-f]+)?(/[.]command[.a-z]*)?$'
or_status=4
or_text='error: LaneFault|'
try 'a task that makes a link of the folder above its own' 0 'a|executed 1 cached 0|' run a.nf
may_write='^$'

# ---- records and the cache

row() {
    cat >row.nf <<'END'
process P {
  input:
  val x
  output:
  stdout
  script:
  "printf $x"
}
workflow {
  P(channel.of('a', 'a')).view()
}
END
}
fresh
row
try 'two equal items' 0 'a|a|executed 2 cached 0|' run row.nf
try 'two equal items, resumed' 0 'a|a|executed 0 cached 2|' run row.nf -resume
rm -rf "$folder/kept"
cp -r work "$folder/kept"
# the record of the second item: its name, and its 81 bytes
record=.cache/$(printf 'l10:s6:nfjob2s1:Ps8:printf as7:l1:s1:anl0:l0:ti1;i1;' | sha256sum | cut -c 1-64)
also 'the second record is the one that is due' holds "work/$record" 'l3:s6:nfrec2s52:l10:s6:nfjob2s1:Ps8:printf as7:l1:s1:anl0:l0:ti1;i1;l3:i0;s1:al0:'

# as the two items left it
again() {
    [ ! -d work/.cache ] || chmod 755 work/.cache
    rm -rf work
    cp -r "$folder/kept" work
}

# damages the second record in several ways, runs again, and tells all of these as one case: its name, how many ways, what damages, what each has to print
damaged() {
    what=$1
    count=$2
    damage=$3
    due=$4
    shift 4
    bad=
    for at in $(seq 0 "$count"); do
        again
        "$damage" "$at" "work/$record"
        "$program" run row.nf -resume >"$folder/printed" 2>/dev/null || true
        shown=$(tr '\n' '|' <"$folder/printed")
        [ "$shown" = "$("$due" "$at")" ] || bad="$bad $at:$shown"
    done
    name=$what
    told "$bad" "$((count + 1)) runs"
}
cut_at() {
    head -c "$1" "$folder/kept/$record" >"$2"
}
changed_at() {
    { head -c "$1" "$folder/kept/$record"; printf '!'; tail -c +$(($1 + 2)) "$folder/kept/$record"; } >"$2"
}
added_to() {
    { cat "$folder/kept/$record"; repeat x "$1"; } >"$2"
}
one_again() {
    echo 'a|a|executed 1 cached 1|'
}
whole_at_0() {
    if [ "$1" = 0 ]; then echo 'a|a|executed 0 cached 2|'; else one_again; fi
}
# the byte 77 is that of the output which the record keeps
printed_at_77() {
    if [ "$1" = 77 ]; then echo '!|a|executed 0 cached 2|'; else one_again; fi
}
damaged 'a record that is cut after any of its bytes' 80 cut_at one_again
damaged 'a record with any of its bytes changed' 80 changed_at printed_at_77
damaged 'a record with bytes behind it' 3 added_to whole_at_0

# a cache in this state, and what is due of a resumed run
cached() {
    try "$1" "$2" "$3" run row.nf -resume
    again
}
again
rm "work/$record" && mkdir "work/$record"
cached 'a record that is a folder' 4 'error: KeeperFault|'
truncate -s 1T "work/$record"
cached 'a record of 1 TiB' 0 'a|a|executed 1 cached 1|'
truncate -s 16777217 "work/$record"
cached 'a record of a byte more than there may be' 0 'a|a|executed 1 cached 1|'
truncate -s 16777216 "work/$record"
cached 'a record of as many bytes as there may be' 0 'a|a|executed 1 cached 1|'
rm "work/$record" && ln -s /dev/zero "work/$record"
cached 'a record that never ends' 0 'a|a|executed 1 cached 1|'
rm "work/$record" && ln -s "$(basename "$record")" "work/$record"
cached 'a record that is a link to itself' 4 'error: KeeperFault|'
for other in work/.cache/*; do cp "$other" "$folder/other"; done
for other in work/.cache/*; do [ "$other" = "work/$record" ] || cp "$other" "work/$record"; done
cached 'a record of another task' 0 'a|a|executed 1 cached 1|'
printf 'l99999999999999999999:' >"work/$record"
cached 'a record of more items than there are bytes' 0 'a|a|executed 1 cached 1|'
{ repeat l1: 5000000; printf n; } >"work/$record"
cached 'a record of 5,000,000 lists in each other' 0 'a|a|executed 1 cached 1|'
printf 's18446744073709551615:a' >"work/$record"
cached 'a record of a longer text than there is memory' 0 'a|a|executed 1 cached 1|'
rm -rf work/.cache && : >work/.cache
cached 'a cache that is a file' 4 'error: KeeperFault|'
rm -rf work && : >work
may_write='parent/here/work$'
cached 'a work directory that is a file' 4 'error: LaneFault|'
may_write='^$'
patience=10
rm "work/$record" && mkfifo "work/$record"
or_status=0
or_text='a|a|executed 1 cached 1|'
cached 'a record that is a pipe' 4 'error: KeeperFault|'
patience=40
# root may read all, so these two cases are another user's
if [ "$(id -u)" != 0 ] || command -v setpriv >/dev/null; then
    if [ "$(id -u)" = 0 ]; then
        user='setpriv --reuid 65534 --regid 65534 --clear-groups'
        chown -R 65534:65534 "$around"
    fi
    chmod 000 "work/$record"
    cached 'a record that may not be read' 4 'error: KeeperFault|'
    [ -z "$user" ] || chown -R 65534:65534 "$around"
    rm -f "work/$record"
    chmod 555 work/.cache
    cached 'a cache that may not be written' 4 'error: KeeperFault|'
    user=
fi

# ---- words and parameter files

fresh
script "process P { output: stdout
script: 'printf a' }
workflow { P().view() }"
may_write='parent/here/-x'
try 'a work directory with a dash' 0 'a|executed 1 cached 0|' run a.nf -work-dir -x
may_write="parent/here/w '|^x(/|$)"
try 'a work directory with quotes and a line end' 0 'a|executed 1 cached 0|' run a.nf -work-dir "w ' \" \$(touch pwned)
x"
also 'no name was run' is_absent "$here/pwned"
may_write='^$'
try 'a work directory of 4,096 bytes' 4 'error: LaneFault|' run a.nf -work-dir "$long"
try 'a work directory that is the script' 4 'error: LaneFault|' run a.nf -work-dir a.nf
if [ ! -e /.cache ]; then
    may_write='parent/here/([.]files|[.]cache|[0-9a-f][0-9a-f])(/|$)'
    try 'an empty work directory' 0 'a|executed 1 cached 0|' run a.nf -work-dir ''
    may_write='^$'
    also 'nothing stands in the root' is_absent /.cache
    # what such a run left there
    rm -rf /.cache
fi
fresh
mkdir other
task_of_x 'printf abc > x'
try 'a run' 0 'x|executed 1 cached 0|' run a.nf
cp a.nf other
cd other
export CDPATH="$here"
may_write='parent/here/other/work'
try 'a run with the folder of another in CDPATH' 0 'x|executed 1 cached 0|' run a.nf
may_write='^$'
unset CDPATH
fresh
script 'workflow { channel.of(params.x).view() }'
try 'a parameter of 100,000 bytes' 0 'aaaaaaaaaa...' run a.nf --x "$(repeat a 100000)"
# shellcheck disable=SC2046 # one word a parameter
try '20,000 parameters' 0 'null|executed 0 cached 0|' run a.nf $(seq -f --p%.0f=1 20000)
# shellcheck disable=SC2046 # one word a parameter
try '100,000 parameters' 0 'null|executed 0 cached 0|' run a.nf $(seq -f --p%.0f=1 100000)
try 'a word that is not UTF-8' 2 'error: usage: UnknownWord at word 0|' run a.nf "$(printf '\377')"
try 'a script that is a folder' 4 'error: HostFault|' run in
try 'a script with an empty name' 3 'error: NoScript|' run ''
try 'a script that never ends' 3 'error: 1:1: ScriptTooLong|' run /dev/zero
try 'a script with a dash' 2 'error: usage: UnknownWord at word 1|' run -a.nf
or_status=3
or_text='error: NoScript|'
try 'a script with a name of 4,096 bytes' 4 'error: HostFault|' run "$long"
# a parameter file, and what is due of it
params() {
    try "$1" "$2" "$3" run a.nf -params-file p.json
}
{ printf '{"a": '; repeat '[' 200; repeat ']' 200; printf '}'; } >p.json
params '200 lists in each other' 3 'error: BadParams |'
repeat '[' 16777216 >p.json
params '16 MiB of brackets' 3 'error: BadParams |'
repeat '{"a":' 3300000 >p.json
params '3,300,000 maps in each other' 3 'error: BadParams |'
{ printf '{"x": '; repeat '[' 64; repeat ']' 64; printf '}'; } >p.json
params 'a value of 64 levels' 0 "$(repeat '[' 64)$(repeat ']' 64)|executed 0 cached 0|"
{ printf '{"x": '; repeat '[' 65; repeat ']' 65; printf '}'; } >p.json
params 'a value of 65 levels' 3 "error: BadParams /x$(repeat /0 64)|"
printf '{"a": 9223372036854775808}' >p.json
params 'a number past 64 bits' 3 'error: BadParams /a|'
printf '{"a/b~c": 1.5}' >p.json
params 'a key with a slash and a tilde' 3 'error: BadParams /a~1b~0c|'
truncate -s 16777217 p.json
params 'a parameter file of a byte more than there may be' 3 'error: FileTooLong p.json|'
try 'a parameter file of 1 TiB' 3 "error: FileTooLong $folder/long|" run a.nf -params-file "$folder/long"
{ printf '{"y": ['; repeat 1, 8388000; printf '1]}'; } >p.json
params 'a parameter file of 8,388,001 numbers' 0 'null|executed 0 cached 0|'
rm p.json && mkdir p.json
params 'a parameter file that is a folder' 4 'error: HostFault|'

# ---- outputs that are closed

# runs the program with standard output or error closed
closed() {
    fresh
    task 'printf a; exit 3'
    listing >"$folder/before"
    status=0
    if [ "$1" = output ]; then
        "$program" run a.nf -queue-size 1 >&- 2>/dev/null || status=$?
    else
        "$program" run a.nf -queue-size 1 >/dev/null 2>&- || status=$?
    fi
    listing >"$folder/after"
    name="standard $1 closed"
    echo '0 0 0' >"$folder/cost"
    : >"$folder/printed"
    due_status=1
    due_text=
    judge
    for code in work/*/*/.exitcode; do
        also "the task's exit status is what it was, with standard $1 closed" holds "$code" 3
    done
}
closed output
closed error

# ---- published files

# a process that publishes the file x.txt to this folder
publishing() {
    DIR=$1 OUTPUT=${2:-x.txt} awk 'BEGIN {
        printf "process P {\n  publishDir %s%s%s\n", "\047", ENVIRON["DIR"], "\047"
        printf "  output: path %s%s%s\n  script: %sprintf abc > %s%s\n}\nworkflow { P() }\n", "\047", ENVIRON["OUTPUT"], "\047", "\047", ENVIRON["OUTPUT"], "\047"
    }' >a.nf
}
fresh
publishing ../x
may_write='parent/x(/|$)'
try 'published to ../x' 0 "publish ../x/x.txt $abc|executed 1 cached 0|" run a.nf
also 'the file is there' holds ../x/x.txt abc
fresh
publishing "$around/elsewhere"
may_write='[.]/elsewhere(/|$)'
try 'published to an absolute path' 0 "publish $around/elsewhere/x.txt $abc|executed 1 cached 0|" run a.nf
also 'the file is there' holds "$around/elsewhere/x.txt" abc
may_write='^$'
fresh
publishing in/plain
try 'published to a folder that is a file' 4 'error: HostFault|' run a.nf
fresh
publishing a.nf
try 'published to a folder that is the script' 4 'error: HostFault|' run a.nf
fresh
mkdir in/x.txt
publishing in
try 'published to a folder in the place of the file' 4 'error: HostFault|' run a.nf
fresh
publishing . a.nf
may_write='parent/here/a[.]nf$'
try 'published in the place of the script' 0 "publish ./a.nf $abc|executed 1 cached 0|" run a.nf
also 'the file is there' holds a.nf abc
may_write='^$'
fresh
publishing work/.files
try 'published to the file store' 0 "publish work/.files/x.txt $abc|executed 1 cached 0|" run a.nf
try 'the same, resumed' 0 "publish work/.files/x.txt $abc|executed 0 cached 1|" run a.nf -resume
stored=work/.files/ba/${abc#ba}
for path in work/.files/ba ./work/.files/ba work/../work/.files/ba; do
    fresh
    publishing "$path" "${abc#ba}"
    try "published to its own stored file, as $path" 0 "publish $path/${abc#ba} $abc|executed 1 cached 0|" run a.nf
    also 'the stored file is whole' holds "$stored" abc
done
fresh
publishing work/.cache
try 'published to the cache' 0 "publish work/.cache/x.txt $abc|executed 1 cached 0|" run a.nf
fresh
publishing -x
may_write='parent/here/-x(/|$)'
try 'published to a folder with a dash' 0 "publish -x/x.txt $abc|executed 1 cached 0|" run a.nf
may_write='parent/here/q'
publishing "q\"\$(touch pwned)\\'"
try 'published to a folder with quotes' 0 'publish q"$(touch pwned)'"'/x.txt $abc|executed 1 cached 0|" run a.nf
also 'no name was run' is_absent "$here/pwned"
may_write='parent/here/q|^r(/|$)'
publishing 'q\nr'
try 'published to a folder with a line end' 0 "publish q|r/x.txt $abc|executed 1 cached 0|" run a.nf
may_write='^$'
publishing "$long"
try 'published to a path of 4,096 bytes' 4 'error: HostFault|' run a.nf
fresh
cat >a.nf <<'END'
process P {
  publishDir 'results'
  input: val x
  output: path 'x.txt'
  script: "printf $x > x.txt"
}
workflow { P(channel.of('abc', 'hello')) }
END
try 'two contents for one target' 1 "error: PublishClash results/x.txt $hello $abc|" run a.nf
fresh
publishing results
may_write='parent/here/results(/|$)'
"$program" run a.nf >&- 2>/dev/null || true
may_write='^$'
also 'published with standard output closed: the file is there' holds results/x.txt abc
rm -rf results
try 'a trace in the place of a folder' 4 'error: HostFault|' run a.nf -with-trace in
may_write='parent/here/results(/|$)'
try 'a trace in the place of the file that is published' 4 "error: Damaged $abc|" run a.nf -with-trace "$stored"
may_write='parent/here/(results(/|$)|a[.]nf$)'
rm -rf work
try 'a trace in the place of the script' 0 "publish results/x.txt $abc|executed 1 cached 0|" run a.nf -with-trace a.nf
may_write='^$'

# ---- what all of them left

cd /
name='the program'
also 'the program is as it was' [ -x "$program" ]
echo "$((right + wrong)) cases: $right as they are due, $wrong not; $written wrote a file that they may not write"
[ "$wrong" = 0 ]
