#!/usr/bin/env bash
# Builds the judge as a library for C, links a program with it, and compares its answers: for the files of
# examples/files under the marks of c/expected.txt, and for files of more than 70,000 lines.
set -euo pipefail
cd "$(dirname "$0")/.."
made=$PWD/target/c
mkdir -p "$made"

(cd crates/catalogue_c && rt lib) > "$made/lib.out" 2>&1 || { cat "$made/lib.out"; exit 1; }
cp crates/catalogue_c/out/libcatalogue_c.a "$made/libcatalogue.a"
gcc -std=c11 -Wall -Wextra -Werror -O2 -Ic -o "$made/try_judge" c/try_judge.c "$made/libcatalogue.a"

# one run for each three marks of the table
grep -v '^#' c/expected.txt | cut -d ' ' -f 1-3 | sort -u | while read -r roughness misfit bend; do
    grep "^$roughness $misfit $bend " c/expected.txt | cut -d ' ' -f 4- > "$made/wanted.out"
    cut -d ' ' -f 1 "$made/wanted.out" | sed 's|^|examples/files/|' | xargs "$made/try_judge" "$roughness" "$misfit" "$bend" | sed 's|^examples/files/||' > "$made/answered.out"
    diff "$made/wanted.out" "$made/answered.out" || { echo "c/test.sh: other answers under marks $roughness $misfit $bend"; exit 1; }
done

# answers MARKS FILE WANTED
answers() {
    local said
    # shellcheck disable=SC2086
    said=$("$made/try_judge" $1 "$2" | sed 's|.* ||')
    [ "$said" = "$3" ] || { echo "c/test.sh: $2 under $1 is $said, not $3"; exit 1; }
}

# files with more lines than a line number can tell: 70,001 good lines, and the same with a last line that is broken
{ head -n 1 examples/files/small.txt; awk 'BEGIN { for (k = 0; k < 70000; k++) print "00" }'; } > "$made/lines.txt"
answers '258 0 0' "$made/lines.txt" 02120002
answers '259 0 0' "$made/lines.txt" 02130001
{ cat "$made/lines.txt"; echo 0; } > "$made/broken.txt"
answers '258 0 0' "$made/broken.txt" 0111FFFF
answers '1 2 3' "$made/broken.txt" 0111FFFF
# line 65,534, 65,535 and 65,536
for k in 65534 65535 65536; do
    head -n $((k - 1)) "$made/lines.txt" > "$made/broken.txt"
    printf 'no end byte' >> "$made/broken.txt"
    answers '258 0 0' "$made/broken.txt" "0111$(printf %04X $((k < 65535 ? k : 65535)))"
done

# a small stack will do
(ulimit -s 256 && answers '257 0 0' examples/files/longest.txt 00000000)

echo "c/test.sh: $(grep -vc '^#' c/expected.txt) answers of the table and 8 more are as they should be"
