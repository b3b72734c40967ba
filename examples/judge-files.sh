#!/usr/bin/env bash
# Runs the program `judge` on every file of examples/files, and on inputs that are longer than what it reads, and compares
# what it prints. The status has to be 0 each time, and 1 where nothing can be read or printed.
set -euo pipefail
cd "$(dirname "$0")/.."
judge=crates/judge/out/judge
files=examples/files
count=0

# says FILE LINE
says() {
    local said
    said=$("$judge" < "$1") || { echo "judge-files.sh: status $? for $1"; exit 1; }
    [ "$said" = "$2" ] || { echo "judge-files.sh: $1 gives $said, not $2"; exit 1; }
    count=$((count + 1))
}

# so many lines of two digits
lines() {
    awk -v n="$1" 'BEGIN { for (k = 0; k < n; k++) print "00" }'
}

while read -r name line; do
    says "$files/$name" "$line"
done < <(grep -v '^#' "$files/expected.txt")
# no file of the folder is left out
[ "$count" -eq "$(find "$files" -name '*.txt' ! -name expected.txt | wc -l)" ]

# what stands behind the first 65,536 bytes is not read: 201 bytes, then lines of 3 bytes, so that byte 65,536 is in the
# middle of one, or, with one line of 4 bytes among them, ends one
long=$(mktemp)
trap 'rm -f "$long"' EXIT
{ cat "$files/small.txt"; lines 30000; } > "$long"
says "$long" EE0111551C
{ cat "$files/small.txt"; echo 000; lines 21777; echo 'not a digit'; } > "$long"
says "$long" EE0212000A

# the line ends with its end byte, and nothing follows
[ "$("$judge" < "$files/small.txt" | wc -c)" -eq 43 ]
[ "$("$judge" < "$files/17-empty.txt" | wc -c)" -eq 11 ]

# standard input that cannot be read, standard output that cannot be written
status=0
"$judge" < . 2> /dev/null || status=$?
[ "$status" -eq 1 ]
status=0
"$judge" < "$files/small.txt" > /dev/full 2> /dev/null || status=$?
[ "$status" -eq 1 ]

echo "judge-files.sh: $count files are judged as they should be"
