#!/bin/sh
# The command line program: what it prints, and its exit status. PROGRAM is its path.
program=$(realpath "${PROGRAM:-build/jazhuppe}") || exit 2
header=$(realpath "$(dirname "$0")/../../include/jazhuppe.h") || exit 2
sample=$(realpath "$(dirname "$0")/../sample.xml") || exit 2
work=$(mktemp -d) || exit 2
trap 'rm -rf "$work"' EXIT
cd "$work" || exit 2
passed=0
failed=0
input=/dev/null

ok() {
    echo "ok $1"
    passed=$((passed + 1))
}

not_ok() {
    echo "FAILED $1"
    failed=$((failed + 1))
}

# NAME, and the command that must succeed.
holds() {
    name=$1
    shift
    if "$@"; then ok "$name"; else not_ok "$name"; fi
}

# NAME STATUS OUT ERR ARGUMENT..: runs the program on the file that `input` names; OUT and ERR are as for printf %b.
expect() {
    name=$1 status=$2
    printf '%b' "$3" > expected_out
    printf '%b' "$4" > expected_err
    shift 4
    "$program" "$@" < "$input" > out 2> err
    got=$?
    if [ "$got" -eq "$status" ] && cmp -s out expected_out && cmp -s err expected_err; then
        ok "$name"
    else
        not_ok "$name: exit status $got, expected $status; what was printed, then what was expected:"
        cat out err
        echo "--"
        cat expected_out expected_err
    fi
}

printf 'Row A&B 11\nRow A&amp;B 12\nRow A&#38;B 13\n' > three
printf 'no seat\n' > none
printf 'x\ta\\b\n\001y' > control
printf 'A&am' > unfinished
printf 'Caf\303\251 1, Caf&#xE9; 2' > utf8
printf 'Row A&#0;1, Row A&#xD800;2, Row A&nul;3' > impossible
printf 'Row A~B 1?\nRow A&amp;B ?2\nRow A&#126;B &#63;3\nRow A?B 14\n' > smudged
printf '\000a\377b&amp;amp;' > bytes
printf 'a=b' > equals
: > empty

# What is found.
expect "ends, by default" 0 '9\n10\n20\n21\n31\n32\n' '' 'Row A&B [0-9]+' three
expect "ends, -e" 0 '10\n21\n32\n' '' -e 'Row A&B [0-9][0-9]' three
expect "starts, -s" 0 '0\n11\n22\n' '' -s 'Row A&B [0-9]+' three
expect "texts, -t, to the earliest end" 0 'three:0:Row A&B 1\nthree:11:Row A&B 1\nthree:22:Row A&B 1\n' '' \
    -t 'Row A&B [0-9]+' three
expect "the last of -e -s -t counts" 0 '0\n11\n22\n' '' -e -t -es 'Row' three
expect "-i folds" 0 '3\n14\n25\n' '' -i 'rOW' three
expect "no fold without it" 1 '' '' 'rOW' three
expect "letters joined" 0 'three:0:Row\nthree:11:Row\nthree:22:Row\n' '' -it 'rOW' three
expect "several files" 0 'three:3\nthree:14\nthree:25\n' '' 'Row' three none
expect "several files, starts" 0 'none:3\nthree:0\nthree:11\nthree:22\nnone:3\n' '' -s '[Rs][oe][wa]' none three none
expect "bytes of UTF-8" 0 'utf8:0:Caf\0303\0251 1\nutf8:9:Caf\0303\0251 2\n' '' -t 'Café [0-9]' utf8
expect "impossible characters" 0 'impossible:0:Row A\0357\0277\02751\nimpossible:11:Row A\0357\0277\02752\n' '' \
    -t 'Row A...[0-9]' impossible
expect "nothing found" 1 '' '' 'Row' none
expect "an empty plan" 1 '' '' '.' empty
expect "an empty plan, starts" 1 '' '' -s '.' empty
expect "what is held back at the plan's end" 0 '4\n' '' 'A&am' unfinished
expect "control bytes in a text" 0 'control:0:x\\ta\\\\b\\n\\x01y\n' '' -t 'x.+y' control
expect "a rule that begins with -" 1 '' '' -- '-x' three

# Ends in the file itself.
expect "raw ends, -r" 0 '10\n25\n40\n' '' -r 'Row A&B [0-9][0-9]' three
expect "raw ends, of each end" 0 '9\n10\n24\n25\n39\n40\n' '' -r 'Row A&B [0-9]+' three
expect "raw ends, -i and -r joined" 0 '10\n25\n40\n' '' -ir 'rOW a&b [0-9][0-9]' three
expect "raw ends, -r and -i joined" 0 '3\n14\n29\n' '' -ri 'rOW' three
expect "-r after -e, the last counts" 0 '10\n25\n40\n' '' -e -r 'Row A&B [0-9][0-9]' three
expect "-e after -r, the last counts" 0 '10\n21\n32\n' '' -r -e 'Row A&B [0-9][0-9]' three
expect "-r among all, the last counts" 0 '25\n' '' --like -s --rewrite -ter 'Row A&B 12' three
expect "-s after -r, the last counts" 0 '11\n' '' -rs 'Row A&B 12' three
expect "--rewrite after -r, the last counts" 0 '.Row\n' '' -r --rewrite '{1,2}Row'
expect "raw ends, several files" 0 'three:25\nthree:40\nthree:25\nthree:40\n' '' -r 'A&B 1[23]' three none three
expect "raw ends, standard input as -, among files" 0 'three:25\n' '' -r 'Row A&B 12' three -
expect "raw ends, nothing found" 1 '' '' -r 'Row' none
expect "raw ends, one reference's for each of its bytes" 0 '4\n5\n18\n18\n' '' -r "$(printf '[\200-\377]')" utf8
expect "raw ends, impossible characters" 0 '9\n25\n34\n' '' -r 'Row A.' impossible
expect "raw ends, what is held back at the plan's end" 0 '2\n3\n4\n' '' -r '[&am]' unfinished
expect "raw ends, with codes" 0 '10\n25\n45\n' '' -r -c '?=[0-9]' -c '~=&' 'Row A&B [0-9][0-9]' smudged

# RULE, and for each end what the last line of the sample is, up to its place.
lines_up_to() {
    rule=$1
    shift
    for place in $("$program" -r "$rule" "$sample"); do
        [ $# -gt 0 ] && [ "$(head -c "$place" "$sample" | tail -n 1)" = "  <seat id=$1" ] || return 1
        shift
    done
    [ $# -eq 0 ]
}
holds "head -c ends with the seat, as it is spelt" lines_up_to 'Row A&B [0-9][0-9]' \
    '"1">Row A&B 11' '"2">Row A&amp;B 12' '"3">Row A&#38;B 13' '"4">Row A&#0000000038;B 14'
holds "head -c ends with the whole reference" lines_up_to 'Row A&' \
    '"1">Row A&' '"2">Row A&amp;' '"3">Row A&#38;' '"4">Row A&#0000000038;' '"5">Row A&amp;'
holds "head -c ends with one byte of what a reference gave" lines_up_to 'Row A&a' '"5">Row A&amp;a'

# Codes.
expect "codes, ends" 0 '10\n21\n32\n' '' -c '?=[0-9]' -c '~=&' 'Row A&B [0-9][0-9]' smudged
expect "codes, starts" 0 '0\n11\n22\n' '' -s -c '?=[0-9]' -c '~=[&8]' 'Row A&B [0-9]+' smudged
expect "codes, texts, to the earliest end" 0 'smudged:0:Row A~B 1\nsmudged:11:Row A&B ?\nsmudged:22:Row A~B ?\n' '' \
    -t -c '?=[0-9]' -c '~=&' 'Row A&B [0-9]+' smudged
expect "codes, texts that overlap" 0 'bytes:0:\\x00a\0377\nbytes:1:a\0377\nbytes:2:\0377\n' '' -t -c '0xFF=x' '.*x' bytes
expect "codes, a text with &amp; in it" 0 'bytes:4:&amp;\n' '' -t -c '?=x' '&amp;' bytes
expect "no codes" 1 '' '' 'Row A&B [0-9][0-9]' smudged
expect "one code of two" 0 '21\n' '' -c '?=[0-9]' 'Row A&B [0-9][0-9]' smudged
expect "a byte that is no code" 0 '40\n' '' 'A[?x]B' smudged
expect "a code in the rule counts for nothing" 1 '' '' -c '?=[0-9]' 'A[?x]B' smudged
expect "a set that is turned round" 0 '10\n' '' -c '?=[^?]' '1Z' smudged
expect "letters and -c joined" 0 '10\n21\n32\n' '' -ic '?=[0-9]' '-c~=&' 'rOW a&b [0-9][0-9]' smudged
expect "-i does nothing to a set" 0 '7\n18\n29\n40\n' '' -i -c 'A=a' 'b' smudged
expect "a code as 0xHH" 0 'bytes:0:\\x00a\0377b\n' '' -t -c '0x00=x' -c '0xfF=[yz]' 'xayb' bytes
expect "= as a code" 0 '3\n' '' -c '==x' 'axb' equals
expect "eight codes" 0 '10\n' '' -c '1=a' -c '2=a' -c '3=a' -c '4=a' -c '5=a' -c '6=a' -c '~=a' -c '?=z' 'B az' smudged
input=three
expect "standard input" 0 '3\n14\n25\n' '' 'Row'
expect "standard input as -, among files" 0 '-:3\n-:14\n-:25\n' '' 'Row' none -
expect "standard input, texts" 0 '-:0:Row\n-:11:Row\n-:22:Row\n' '' -t 'Row'
input=/dev/null

# Stored rules.
expect "--rewrite, front and back" 0 '.a..\n' '' --rewrite '{1,2}a{2,4}'
expect "--rewrite, gaps that are bared" 0 '.{1,1}...\n' '' --rewrite '{0,1}{01,02}{1,1}{3,4}'
expect "--rewrite, bytes that stay" 0 'Caf\0303\0251 [{1,2}]+\\\\.\n' '' --rewrite 'Café [{1,2}]+\\{1,2}'
expect "--rewrite, a rule without outer gaps" 0 'Row A&B [0-9]+\n' '' --rewrite 'Row A&B [0-9]+'
expect "--rewrite after -i" 0 'row\n' '' -i --rewrite 'row{0,9}'
expect "--rewrite before -i" 0 'row\n' '' --rewrite -i 'row{0,9}'
expect "--rewrite of a rule that begins with -" 0 '-x\n' '' --rewrite -- '-x{0,9}'
expect "--rewrite, the last counts" 0 '.Row\n' '' -s --rewrite '{1,2}Row'
expect "-s after --rewrite, the last counts" 0 '0\n11\n22\n' '' --rewrite -s 'Row' three
rewritten() {
    "$program" --rewrite "$1" > rule && [ "$("$program" -e "$(cat rule)" three)" = "$2" ]
}
holds "what is rewritten is taken" rewritten '{1,9}&B [0-9]{0,9}' '9
20
31'

# LIKE patterns, and names.
expect "--like, the rule" 0 'Row A&B .*.\n' '' --like 'Row A&B %_'
expect "--like, what a backslash takes" 0 '%_\\\\.*\n' '' --like '\%\_\\%'
expect "--like, marks" 0 '\\.\\[a-z\\]\\{1,2\\}\\?\\+\\*^\n' '' --like '.[a-z]{1,2}?+*^'
expect "--like, bytes of UTF-8" 0 'Caf\0303\0251 .\n' '' --like 'Café _'
expect "--like of a pattern that begins with -" 0 '-x.*\n' '' --like -- '-x%'
expect "--like, names" 0 'Row A&B 12\nRow A&B 3\n' '' \
    --like 'Row A&B %_' 'Row A&B 12' 'Row A&B ' 'row A&B 12' '' 'Row A&amp;B 12' 'xRow A&B 12' 'Row A&B 3'
expect "--like, no name" 1 '' '' --like 'Row _' 'Row' 'Row 12' 'ROW 1'
expect "--like, the empty name" 1 '' '' --like '%_' ''
expect "--like, a name twice" 0 'ab\nab\n' '' --like 'a%' ab ab
expect "--like, control bytes in a name" 0 'x\\ta\\\\b\\n\\x01y\n' '' --like 'x%y' "$(cat control)"
expect "--like, names that look like options" 0 '-i\n--\n-c\n' '' --like -- '-%' -i -- -c
expect "--like, the last counts" 0 'Row.*\n' '' -s --rewrite -t --like 'Row%'
expect "-t after --like, the last counts" 0 'three:0:Row\nthree:11:Row\nthree:22:Row\n' '' --like -t 'Row' three
expect "--rewrite after --like, the last counts" 0 'Row%\n' '' --like --rewrite 'Row%{0,9}'
imported() {
    "$program" -e "$("$program" --like "$1")" three > out && [ "$(cat out)" = "$2" ]
}
holds "what is imported is taken" imported '&B 1_' '10
21
32'

# Trouble.
usage='usage: jazhuppe [-i] [-c CODE=SET]... [-e | -r | -s | -t] RULE [FILE...]\n       jazhuppe [-i] --rewrite RULE
       jazhuppe --like PATTERN [NAME...]\n'
expect "a plan that is not there" 2 'three:3\nthree:14\nthree:25\n' 'jazhuppe: gone: No such file or directory\n' \
    'Row' gone three
expect "a folder" 2 '' 'jazhuppe: .: Is a directory\n' 'Row' .
expect "a folder, starts" 2 '' 'jazhuppe: .: Is a directory\n' -s 'Row' .
expect "no rule" 2 '' "jazhuppe: RULE is missing\n${usage}Try 'jazhuppe --help'.\n"
expect "no such option" 2 '' "jazhuppe: no such option: -x\n${usage}Try 'jazhuppe --help'.\n" -x 'Row'
expect "-c without more" 2 '' "jazhuppe: -c needs CODE=SET\n${usage}Try 'jazhuppe --help'.\n" -c
for code in '?' '' '=' 'é=a' '??=a' '0x1=a' '0xG0=a' '0x0G=a' '0x100=a'; do
    expect "-c '$code'" 2 '' "jazhuppe: not CODE=SET, with CODE one byte or 0xHH: $code\n${usage}Try 'jazhuppe --help'.\n" \
        -c "$code" 'Row' three
done
for set in ab '[a]b' '{1,2}' '{0,1}a' '{2,2}' '..' 'a?b'; do
    expect "-c '?=$set'" 2 '' "jazhuppe: SET is not one position of a rule: $set\n${usage}Try 'jazhuppe --help'.\n" \
        -c "?=$set" 'Row' three
done
expect "nine codes" 2 '' "jazhuppe: more than 8 codes: 9=a\n${usage}Try 'jazhuppe --help'.\n" \
    -c '1=a' -c '2=a' -c '3=a' -c '4=a' -c '5=a' -c '6=a' -c '7=a' -c '8=a' -c '9=a' 'Row' three
expect "--rewrite without a rule" 2 '' "jazhuppe: RULE is missing\n${usage}Try 'jazhuppe --help'.\n" --rewrite
for more in three -; do
    expect "--rewrite and $more" 2 '' "jazhuppe: --rewrite takes no FILE and no -c\n${usage}Try 'jazhuppe --help'.\n" \
        --rewrite 'a{1,2}' "$more"
done
expect "--rewrite and -c" 2 '' "jazhuppe: --rewrite takes no FILE and no -c\n${usage}Try 'jazhuppe --help'.\n" \
    -c '?=a' --rewrite 'a{1,2}'
expect "--like without a pattern" 2 '' "jazhuppe: PATTERN is missing\n${usage}Try 'jazhuppe --help'.\n" --like
for option in -i '-c?=a'; do
    expect "--like and $option" 2 '' "jazhuppe: --like takes no -i and no -c\n${usage}Try 'jazhuppe --help'.\n" \
        --like "$option" 'a%' ab
    expect "$option and --like" 2 '' "jazhuppe: --like takes no -i and no -c\n${usage}Try 'jazhuppe --help'.\n" \
        "$option" --like 'a%'
done
expect "no such long option" 2 '' "jazhuppe: no such option: --fold\n${usage}Try 'jazhuppe --help'.\n" --fold 'Row'

# Refusals, with a caret under the place.
expect "refused 1" 2 '' 'jazhuppe: refused 1 at 0: the rule is empty\n  \n  ^\n' ''
expect "refused 3" 2 '' "jazhuppe: refused 3 at 4: class unclosed, empty, with a reversed range, a bad \\\\ or misplaced -,\
 or left with no byte\n  Row [b-a]\n      ^\n" 'Row [b-a]'
expect "refused 4" 2 '' 'jazhuppe: refused 4 at 1: gap not of the form {a,b} with one or two digits each, a > b, or b = 0
  a{3}\n   ^\n' 'a{3}'
expect "refused 5" 2 '' 'jazhuppe: refused 5 at 2: ?, + or * first, after a gap, or after another of them\n  a+*\n    ^\n' \
    'a+*'
expect "refused 6, after bytes of UTF-8" 2 '' 'jazhuppe: refused 6 at 5: bad or last \\, or stray ] or }
  Caf\0303\0251]\n      ^\n' 'Café]'
expect "refused 7" 2 '' 'jazhuppe: refused 7 at 18: this element takes the positions past 255
  {1,99}{1,99}{1,57}a\n                    ^\n' '{1,99}{1,99}{1,57}a'
expect "refused 8" 2 '' 'jazhuppe: refused 8 at 2: the rule admits the empty string\n  a?\n    ^\n' 'a?' gone
long=$(printf '%01100d' 0)
expect "refused 2, the rule in part" 2 '' "jazhuppe: refused 2 at 1023: the rule is over 1,023 bytes
  $(printf '%076d' 0)\n$(printf '%62s' '')^\n" "$long"
expect "a set refused by 3" 2 '' "jazhuppe: refused 3 at 0: class unclosed, empty, with a reversed range, a bad \\\\ or misplaced -,\
 or left with no byte\n  [b-a]\n  ^\n" -c '?=[b-a]' 'Row'
expect "a set refused by 1" 2 '' 'jazhuppe: refused 1 at 0: the rule is empty\n  \n  ^\n' -c '?=' 'Row'
codes='jazhuppe: refused 15: a code named twice, a SET with a code in it, or a position of the rule that holds codes alone\n'
expect "refused 15, a code named twice" 2 '' "$codes" -c '?=a' -c '0x3F=b' 'Row' gone
expect "refused 15, a set with a code in it" 2 '' "$codes" -c '?=.' 'Row' gone
expect "refused 15, codes alone" 2 '' "$codes" -c 'R=a' 'Row' gone
expect "codes alone but for fold" 0 '3\n14\n25\n' '' -i -c 'R=r' 'Row' three
expect "the rule before 15" 2 '' 'jazhuppe: refused 8 at 2: the rule admits the empty string\n  a?\n    ^\n' -c '?=.' 'a?' gone

outer="jazhuppe: refused 16 at"
words="the rule begins or ends with a gap {a,b} with a < b"
hint="Try 'jazhuppe --rewrite RULE'.\n"
expect "refused 16, at the front" 2 '' "$outer 0: $words\n  {1,2}a{1,2}\n  ^\n$hint" '{1,2}a{1,2}' gone
expect "refused 16, at the back" 2 '' "$outer 4: $words\n  Row {0,9}\n      ^\n$hint" -i -t 'Row {0,9}' gone
expect "16 before 15" 2 '' "$outer 0: $words\n  {1,2}R\n  ^\n$hint" -c 'R=a' '{1,2}R' gone
expect "8 before 16" 2 '' 'jazhuppe: refused 8 at 5: the rule admits the empty string\n  {0,1}\n       ^\n' '{0,1}'
expect "--rewrite refused by 5" 2 '' 'jazhuppe: refused 5 at 5: ?, + or * first, after a gap, or after another of them
  {1,2}?\n       ^\n' --rewrite '{1,2}?'
expect "--rewrite refused by 8" 2 '' 'jazhuppe: refused 8 at 5: the rule admits the empty string\n  {0,1}\n       ^\n' \
    --rewrite '{0,1}'
expect "--rewrite refused by 2" 2 '' "jazhuppe: refused 2 at 1023: the rule is over 1,023 bytes
  $(printf '%076d' 0)\n$(printf '%62s' '')^\n" --rewrite "$long"
expect "--rewrite, a finished text of 1,023 bytes" 0 "$(printf '%098d' 0 | tr 0 .)[$(printf '%0923d' 0)]\n" '' \
    --rewrite "{98,99}[$(printf '%0923d' 0)]"
expect "--rewrite, one of 1,024 refused by 2" 2 '' 'jazhuppe: refused 2 at 1023: the rewritten rule is over 1,023 bytes\n' \
    --rewrite "{98,99}[$(printf '%0924d' 0)]"

like='jazhuppe: refused 14 at'
words='\\ last, or before another byte than %, _ or \\'
expect "--like refused by 14, at the end" 2 '' "$like 2: $words\n  ab\\\\\n    ^\n" --like 'ab\'
expect "--like refused by 14, before another byte" 2 '' "$like 5: $words\n  Caf\0303\0251\\\\.%\\\\\n      ^\n" \
    --like 'Café\.%\' Café
expect "--like refused by 14, the pattern in part" 2 '' "$like 1100: $words
  $(printf '%060d' 0)\\\\a\n$(printf '%62s' '')^\n" --like "$long\\a"
expect "--like refused by 1" 2 '' 'jazhuppe: refused 1 at 0: the rule is empty\n  \n  ^\n' --like '' ''
expect "--like refused by 8" 2 '' 'jazhuppe: refused 8 at 4 of the imported rule: the rule admits the empty string\n' --like '%%' ab
expect "--like refused by 7" 2 '' 'jazhuppe: refused 7 at 510 of the imported rule: this element takes the positions past 255\n' \
    --like "$(printf '%0256d' 0 | tr 0 .)"
expect "--like refused by 2" 2 '' 'jazhuppe: refused 2 at 1023 of the imported rule: the rule is over 1,023 bytes\n' --like "$long"

# Help.
version=$(sed -n 's/^#define JAZHUPPE_VERSION "\(.*\)"/\1/p' "$header")
expect "--version" 0 "jazhuppe $version\n" '' --version
"$program" --help > out
holds "--help" [ "$? $(head -n 1 out)" = "0 usage: jazhuppe [-i] [-c CODE=SET]... [-e | -r | -s | -t] RULE [FILE...]" ]

# A reference that a piece of 4,096 bytes cuts, at each place in it.
cut_everywhere() {
    before=$((4096 - 1 - ${#1}))
    while [ "$before" -le 4096 ]; do
        { head -c "$before" /dev/zero | tr '\0' '.'; printf 'A%sB' "$1"; } > severed
        [ "$("$program" 'A&B' severed)" = "$((before + 3))" ] || return 1
        [ "$("$program" -s 'A&B' severed)" = "$before" ] || return 1
        [ "$("$program" -r 'A&B' severed)" = "$((before + 2 + ${#1}))" ] || return 1
        before=$((before + 1))
    done
}
holds "a reference cut between pieces" cut_everywhere '&#38;'
holds "a padded one of 32 bytes" cut_everywhere "&#$(printf '%029d' 38);"

# Output that cannot be written.
if [ -w /dev/full ]; then
    "$program" 'Row' three > /dev/full 2> err
    holds "a full disk is trouble" [ "$? $(cat err)" = "2 jazhuppe: standard output: No space left on device" ]
    "$program" --rewrite 'Row' > /dev/full 2> err
    holds "for --rewrite too" [ "$? $(cat err)" = "2 jazhuppe: standard output: No space left on device" ]
    "$program" --like 'a%' > /dev/full 2> err
    holds "for --like too" [ "$? $(cat err)" = "2 jazhuppe: standard output: No space left on device" ]
    "$program" --like 'a%' ab > /dev/full 2> err
    holds "and for names" [ "$? $(cat err)" = "2 jazhuppe: standard output: No space left on device" ]
fi
yes a | head -c 1000000 > many
{ "$program" 'a' many 2> err; echo $? > status; } | head -n 1 > out
holds "a closed pipe is trouble, without words" [ "$(cat status out err)" = "2
1" ]

# 300 MB as a stream: 20,000,000 lines of 15 bytes that decode to 11 each. The program may have 16 MiB in all.
long_stream() {
    { yes 'Row A&amp;B 12' | head -c 300000000; printf 'Seat 7'; }
}
bounded() {
    long_stream | (ulimit -v 16384 && exec "$program" "$1" 'Seat 7')
}
holds "300 MB as a stream, in 16 MiB" [ "$(bounded -e)" = 220000006 ]
holds "300 MB as a stream, in 16 MiB, raw ends" [ "$(bounded -r)" = 300000006 ]
if [ -x /usr/bin/time ]; then
    long_stream | /usr/bin/time -f '%M' -o peak "$program" 'Seat 7' > out
    holds "300 MB as a stream: peak memory $(cat peak) KiB" [ "$(cat peak)" -lt 4096 ]
fi

# The limit, in files without blocks.
if truncate -s 4294967296 over 2> err && truncate -s 4294967295 most 2> err; then
    words='jazhuppe: over: refused 10: more than 4294967295 bytes\n'
    expect "refused 10" 2 '' "$words" 'Row' over
    expect "refused 10, starts" 2 '' "$words" -s 'Row' over
    expect "as much as may be" 1 '' '' 'Row' most
fi

# Progress, where standard error is a terminal.
if command -v script > /dev/null && truncate -s 200M large 2> err; then
    script -qec "$program 'Row' large" /dev/null > out < /dev/null
    holds "progress on a terminal" grep -q 'jazhuppe: large: scanned 128 of 200 MiB' out
fi

echo "command line: $passed ok, $failed failed"
[ "$failed" -eq 0 ]
