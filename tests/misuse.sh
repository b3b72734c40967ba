#!/usr/bin/env bash
# A multiplier cannot be written while a file is at its readings: the compiler refuses such a program. It takes the same
# program with a reading in the multiplier's place. Wants the crates proved before, as after `rt ci`.
set -euo pipefail
cd "$(dirname "$0")/.."
work=$(mktemp -d)
trap 'rm -rf "$work"' EXIT
mkdir "$work/crates"
cp -r crates/kinds crates/digits crates/archive "$work/crates"
printf 'kinds:\ndigits:\narchive: kinds digits\n' > "$work/crates.txt"
printf '\nmod misuse;\n' >> "$work/crates/archive/src/lib.rt"

# Writes the program with one call, and has it compiled.
compiled() {
    cat > "$work/crates/archive/src/misuse.rt" <<PROGRAM
// A call on a file that is at its readings.
use crate::stages::AtReadings;
use crate::stages::Refused;
use crate::stages::Unfinished;
use kinds::reading::Reading;

fn misuse(
    file: Unfinished<AtReadings>,
    place: &mut [u8],
    reading: Reading,
) -> Result<Unfinished<AtReadings>, Refused<Unfinished<AtReadings>>> {
    $1
}
PROGRAM
    (cd "$work/crates/archive" && rt check --only archive::misuse::misuse) > "$work/said" 2>&1
}

if ! compiled 'file.reading(place, reading)'; then
    tail -n 5 "$work/said"
    echo "misuse: the program with a reading does not compile"
    exit 1
fi
if compiled 'file.multiplier(place, reading.crude)'; then
    echo "misuse: a multiplier can be written while the file is at its readings"
    exit 1
fi
grep -F 'error[unknown-method]: the method `multiplier` takes `self` as `Unfinished<AtMultipliers>`, and is called on `Unfinished<AtReadings>`' "$work/said"
echo "misuse: refused by the compiler, as it must be"
