#!/bin/sh
# The example host: each feed's lines are those that the command line program prints of it alone, the feeds take turns, and a
# slow one holds nobody up. VENUES and PROGRAM are the paths of the two.
venues=$(realpath "${VENUES:-build/venues}") || exit 2
program=$(realpath "${PROGRAM:-build/jazhuppe}") || exit 2
sample=$(realpath "$(dirname "$0")/../sample.xml") || exit 2
work=$(mktemp -d) || exit 2
trap 'rm -rf "$work"' EXIT
cd "$work" || exit 2
passed=0
failed=0

# NAME, and the command that must succeed.
holds() {
    name=$1
    shift
    if "$@"; then
        echo "ok $name"
        passed=$((passed + 1))
    else
        echo "FAILED $name"
        failed=$((failed + 1))
    fi
}

# STATUS OUT ERR ARGUMENT..: what it prints, OUT and ERR as for printf %b. It may take 20 seconds.
prints() {
    status=$1
    printf '%b' "$2" > expected_out
    printf '%b' "$3" > expected_err
    shift 3
    timeout 20 "$venues" "$@" > out 2> err < /dev/null
    got=$?
    [ "$got" -eq "$status" ] && cmp out expected_out && cmp err expected_err && return
    echo "exit status $got, expected $status; what was printed:"
    cat out err
    return 1
}

# BYTES TEXT: the text again and again.
filled() {
    yes "$2" | tr -d '\n' | head -c "$1"
}

# Eight plans, each with its rule: of unequal lengths, with references that pieces of 512 bytes cut, and one that is empty.
cp "$sample" sample.xml
filled 20000 'Row A&amp;B 12; ' > long
{ filled 509 .; printf 'A&#38;B'; filled 500 .; printf 'A&#x0000000000000000000000026;B'; } > severed
: > empty
{ filled 1022 a; printf 'b&am'; } > held
{ printf '\000\377'; filled 3000 "$(printf 'Caf&#xE9; 1, Caf\303\251 2, &#0;')"; } > utf8
filled 512 'seat ' > piece
printf 'Row Z 9' > short
set -- 'Row A&B [0-9][0-9]' sample.xml 'A&B 1[0-9]' long 'A&B' severed '.' empty 'a?b&am' held 'Caf.. [0-9]' utf8 \
    'seat' piece 'Row [A-Z] [0-9]' short

# What the program prints of each, with the same prefix; it takes a second file to put the prefix there.
alone() {
    while [ $# -gt 0 ]; do
        "$program" "$1" "$2" /dev/null > "$2.alone"
        shift 2
    done
}
agree() {
    while [ $# -gt 0 ]; do
        grep -a "^$2:" out > given
        cmp given "$2.alone" || return 1
        shift 2
    done
}
alone "$@"
timeout 20 "$venues" "$@" > out 2> err
holds "eight plans: something is found, and nothing is said" [ "$? $(cat err)" = "0 " ]
holds "each plan's lines are those that it gets alone" agree "$@"
holds "and there are no others" [ "$(wc -l < out)" = "$(cat ./*.alone | wc -l)" ]
found=0
for name in sample.xml long severed held utf8 piece short; do
    [ -s "$name.alone" ] && found=$((found + 1))
done
holds "something is found in all but the empty plan" [ "$found $(wc -c < empty.alone)" = "7 0" ]
# The first piece of each, in the order of their numbers: that of `held` has no end, and `severed` is cut there.
holds "plans take turns" [ "$(cut -d: -f1 out | uniq | head -n 8 | tr '\n' ' ')" = \
    "sample.xml long utf8 piece short long severed utf8 " ]

# Three plans with an end at the last byte of each piece, which take turns; the third has one piece more.
for name in one two three; do
    { filled 511 .; printf 'a'; filled 511 .; printf 'a'; } > "$name"
done
{ filled 511 .; printf 'a'; } >> three
holds "turns, piece by piece" prints 0 \
    'one:512\ntwo:512\nthree:512\none:1024\ntwo:1024\nthree:1024\nthree:1536\n' '' a one a two a three
holds "one plan" prints 0 'two:512\ntwo:1024\n' '' a two
holds "nothing found" prints 1 '' '' b one . empty

# FIFOs. A writer goes on only when the other plan's line has been seen, for which there are 10 seconds.
seen() {
    tries=0
    until grep -q "$1" out; do
        tries=$((tries + 1))
        [ "$tries" -lt 100 ] || { echo "$1" >> late; return; }
        sleep 0.1
    done
}
fifos() {
    rm -f late
    : > out
    mkfifo paused coming
    # It pauses inside a reference; the other is not even opened before that.
    { printf 'Row A&am'; seen '^short:7$'; printf 'p;B 12'; } > paused &
    { seen '^paused:10$'; printf 'Row Q 4' > coming; } &
    timeout 20 "$venues" 'A&B 12' paused 'Row [A-Z] [0-9]' coming 'Row [A-Z] [0-9]' short > out 2> err
    got=$?
    wait
    [ "$got" -eq 0 ] && [ ! -s err ] && [ ! -e late ] && [ "$(cat out)" = "short:7
paused:10
coming:7" ]
}
holds "a feed whose writer pauses, or has not come, holds up nobody" fifos

# Two that pause at once, their bytes there before anyone reads: the second piece has its turn though nothing more arrives.
both_paused() {
    rm -f late
    : > out
    mkfifo left right
    exec 3<> left 4<> right
    printf 'Row L 1' >&3
    printf 'Row R 2' >&4
    timeout 20 "$venues" 'Row [A-Z] [0-9]' left 'Row [A-Z] [0-9]' right > out 2> err 3>&- 4>&- &
    seen '^left:7$'
    seen '^right:7$'
    exec 3>&- 4>&-
    wait $! && [ ! -s err ] && [ ! -e late ] && [ "$(cat out)" = "left:7
right:7" ]
}
holds "a piece that waits has its turn while all writers pause" both_paused

# Trouble.
usage='usage: venues RULE FILE [RULE FILE]...\nOne to eight pairs.\n'
holds "no arguments" prints 2 '' "$usage"
holds "a rule without a file" prints 2 '' "$usage" a
holds "an odd number of arguments" prints 2 '' "$usage" a one b
holds "nine pairs" prints 2 '' "$usage" a one a one a one a one a one a one a one a one a one
holds "a refused rule, before any file is looked at" prints 2 '' 'venues: two: rule refused 5 at 2\n' \
    a gone 'a+*' two
holds "a file that is not there: the others go on" prints 2 'one:512\none:1024\n' \
    'venues: gone: No such file or directory\n' b gone a one
holds "a folder: the others go on" prints 2 'one:512\none:1024\n' 'venues: .: Is a directory\n' a . a one
if [ -w /dev/full ]; then
    "$venues" a one > /dev/full 2> err
    holds "a full disk is trouble" [ "$? $(cat err)" = "2 venues: standard output: No space left on device" ]
fi
filled 1000000 a > many
{ timeout 20 "$venues" a many 2> err; echo $? > status; } | head -n 1 > out
holds "a closed pipe is trouble, without words" [ "$(cat status out err)" = "2
many:1" ]

echo "venues: $passed ok, $failed failed"
[ "$failed" -eq 0 ]
