#!/usr/bin/env bash
# Copies the crates into a new folder, with the benchmarks as one of them.
#
#     scripts/with_measure.sh FOLDER
#
# The benchmarks stand beside the crates, in measure/, with their line of crates.txt in its file `libraries`: nothing is promised of them,
# and what they print can't be compared, so the gate leaves them out. It refuses a file that ends in .rt and is proved by nobody, so theirs
# end in .rs. In FOLDER/crates/measure they are a crate like any other.
set -eu

[ $# -eq 1 ] || { sed -n '2,8s/^# \{0,1\}//p' "$0" >&2; exit 2; }
[ ! -e "$1" ] || { echo "with_measure: $1 is there already" >&2; exit 2; }
mkdir -p "$1/crates/measure/src"
to=$(cd "$1" && pwd)
cd "$(dirname "$0")/.."
tar -C crates --exclude=out --exclude=must-fail --exclude=wrong-bodies -cf - . | tar -C "$to/crates" -xf -
for file in measure/src/*.rs; do
    name=$(basename "$file" .rs)
    cp "$file" "$to/crates/measure/src/$name.rt"
done
cat crates.txt measure/libraries > "$to/crates.txt"
cp HANDLES "$to"
