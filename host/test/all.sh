#!/bin/sh
# Runs the host tests, which make has built: under valgrind where it is there. CC, CXX, PROGRAM and VENUES are make's.
cd "$(dirname "$0")/../.." || exit 2
failed=0

if command -v valgrind > /dev/null; then
    watched() { valgrind -q --error-exitcode=1 "$@"; }
else
    echo "valgrind is not there: the tests run without it"
    watched() { "$@"; }
fi

# The test's name, then its command.
try() {
    name=$1
    shift
    echo "== $name"
    "$@" || { echo "FAILED $name"; failed=1; }
}

header() {
    "$@" -Wall -Wextra -Wpedantic -Werror -fsyntax-only include/jazhuppe.h && echo "ok the header, as $*"
}

# What it prints is held elsewhere.
eight_feeds() {
    set --
    for file in host/sample.xml host/sample.sh host/jazhuppe.1 host/test/cases.txt /dev/null host/venues.c Makefile \
        include/jazhuppe.h; do
        set -- "$@" 'Row A&B [0-9]+' "$file"
    done
    watched "${VENUES:-build/venues}" "$@" > /dev/null
}

try "header" header "${CC:-cc}" -std=c99 -x c
if command -v "${CXX:-c++}" > /dev/null; then
    try "header" header "${CXX:-c++}" -std=c++11 -x c++
else
    echo "a C++ compiler is not there: the header is not tried with one"
fi
try "marked" watched build/test/marked
try "refusals" watched build/test/refusals
try "scan values" watched build/test/scan_values
try "turns, watched" watched build/test/turns 2 40
try "turns" build/test/turns
# It maps gigabytes, which valgrind would count byte by byte.
try "limits" build/test/limits
try "differential, watched" watched build/test/differential 2 300
try "differential" build/test/differential
try "written cases" build/test/differential - host/test/cases.txt
try "LIKE as SQLite has it" sh host/test/sqlite.sh
try "lister" sh host/test/lister.sh
for option in -e -r -s -t; do
    try "program, watched, $option" watched "${PROGRAM:-build/jazhuppe}" "$option" 'Row A&B [0-9]+' host/sample.xml
    try "program, watched, $option -c" watched "${PROGRAM:-build/jazhuppe}" "$option" -c '1=[02-9]' 'Row A&B [2-9]+' host/sample.xml
done
try "program, watched, --rewrite" watched "${PROGRAM:-build/jazhuppe}" --rewrite '{0,9}{1,2}Row A&B [0-9]+{0,9}'
try "program, watched, --like" watched "${PROGRAM:-build/jazhuppe}" --like 'Row A&B \_%[_]'
try "program, watched, --like with names" watched "${PROGRAM:-build/jazhuppe}" --like 'Row A&B %_' '' 'Row A&B 12' 'Row A&B '
try "command line" sh host/test/cli.sh
try "venues, watched" eight_feeds
try "venues" sh host/test/venues.sh
[ "$failed" -eq 0 ] && echo "host tests: all ok"
exit "$failed"
