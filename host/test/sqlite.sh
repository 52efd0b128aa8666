#!/bin/sh
# LIKE as SQLite has it, an engine that nobody here wrote: each name that is drawn is accepted there exactly where the
# imported rule covers it. PROGRAM is the command line program.
cd "$(dirname "$0")/../.." || exit 2
program=${PROGRAM:-build/jazhuppe}
if ! command -v sqlite3 > /dev/null; then
    echo "sqlite3 is not there: LIKE is not held against it"
    exit 0
fi
work=$(mktemp -d) || exit 2
trap 'rm -rf "$work"' EXIT

sqlite() {
    sqlite3 -batch -init /dev/null -list :memory: "$@"
}

counts=$(build/test/sqlite "$work/sql" "$work/answers") || { echo "too few of some kind: $counts"; exit 1; }
sqlite < "$work/sql" > "$work/given" || exit 1
diff "$work/given" "$work/answers" || { echo "above: pattern, name, accepted; < by SQLite, > by the imported rule"; exit 1; }
echo "ok SQLite $(sqlite 'SELECT sqlite_version()') answers alike: $counts"

# The known difference: before another byte than %, _ or \, SQLite takes a \ as if it were not there.
taken=$(sqlite "PRAGMA case_sensitive_like=ON; SELECT 'ab' LIKE 'a\\b' ESCAPE '\\'") || exit 1
refusal=$("$program" --like 'a\b' 'ab' 2>&1 | head -n 1)
if [ "$taken" != 1 ] || [ "${refusal#jazhuppe: refused 14 at 1:}" = "$refusal" ]; then
    printf '%s\n' "the known difference is another: SQLite says $taken, and the program $refusal"
    exit 1
fi
printf '%s\n' 'ok the known difference: SQLite takes a\b for ab, and it is refused by 14 here'
