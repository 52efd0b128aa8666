#!/bin/sh
# The lister, a program that rt proved and linked, over document 01's marked cases and edges. A line of lister.txt is a
# title, a tab and an input, in which a tab stands for a newline and `@`, a number and a byte for so many of the byte;
# lister.out has each title and what the lister prints.
cd "$(dirname "$0")/../.." || exit 2
given=$(mktemp) || exit 2
trap 'rm -f "$given"' EXIT
tab=$(printf '\t')
LC_ALL=C
export LC_ALL

input() {
    printf '%s' "$1" | awk '
        {
            gsub(/\t/, "\n")
            while (match($0, /@[0-9]+/)) {
                printf "%s", substr($0, 1, RSTART - 1)
                times = substr($0, RSTART + 1, RLENGTH - 1)
                byte = substr($0, RSTART + RLENGTH, 1)
                while (times-- > 0) printf "%s", byte
                $0 = substr($0, RSTART + RLENGTH + 1)
            }
            printf "%s", $0
        }'
}

while IFS= read -r line; do
    echo "-- ${line%%"$tab"*}"
    input "${line#*"$tab"}" | build/lister
done < host/test/lister.txt > "$given"
diff "$given" host/test/lister.out || exit 1
echo "ok the lister, $(grep -c '' host/test/lister.txt) inputs"
