#!/bin/sh
# Finds the seats of the sample plan, next to what a search without decoding finds. PROGRAM is the command line finder.
cd "$(dirname "$0")/.." || exit 2
program=${PROGRAM:-build/jazhuppe}
rule='Row A&B [0-9][0-9]'

say() {
    printf '\n%s\n' "$1"
}

say "The plan host/sample.xml has four seats in row A&B, each spelt in its own way:"
grep '<seat' host/sample.xml
say "\$ grep -o '$rule' host/sample.xml       # without decoding, three seats are lost"
grep -o "$rule" host/sample.xml
say "\$ $program -t '$rule' host/sample.xml       # each seat, with the place where it starts"
"$program" -t "$rule" host/sample.xml || exit
say "\$ $program '$rule' host/sample.xml       # where they end, reading the plan as a stream"
"$program" "$rule" host/sample.xml
say "\$ $program -r '$rule' host/sample.xml       # and where in the file itself, references and all"
"$program" -r "$rule" host/sample.xml
