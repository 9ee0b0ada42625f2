#!/usr/bin/env bash
# Proves a program with all crates that it stands on, and builds it.
#
#     scripts/prove_program.sh NAME
#
# The program is kept as crates/NAME/out/proved/NAME, and beside it, as `state`, the checksum of what it was made of. Standard error
# has a line for each crate once it is proved, as scripts/prove_changed.py prints it; what was proved before and has not changed is
# passed over.
set -euo pipefail

[ $# -eq 1 ] || { sed -n '2,8s/^# \{0,1\}//p' "$0" >&2; exit 2; }
name=$1
cd "$(dirname "$0")/.."
out=crates/$name/out
mkdir -p "$out/proved"
scripts/state_below.sh "$name" > "$out/proved/state.new"
echo "$name: proving $(scripts/crates_below.sh "$name" | wc -l) crates; from nothing this takes an hour on two processors" >&2
if ! scripts/prove_changed.py "$name" >&2; then
    rm -f "$out/proved/state.new"
    echo "$name: it was not proved" >&2
    exit 1
fi
if [ "$(cat "$out/proved/state.new")" != "$(scripts/state_below.sh "$name")" ]; then
    echo "$name: its files changed meanwhile; prove it once more" >&2
    exit 1
fi
cp "$out/$name" "$out/proved/$name.new"
mv "$out/proved/$name.new" "$out/proved/$name"
mv "$out/proved/state.new" "$out/proved/state"
echo "$name: proved, and built" >&2
