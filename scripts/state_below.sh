#!/usr/bin/env bash
# A checksum of a crate and of all that it stands on in this repository: their files, and their lines of crates.txt.
#
#     scripts/state_below.sh NAME
#
# What is built (out/), the edits that are to be refused (must-fail/, wrong-bodies/) and the stored runs (stdin, stdout, args, status,
# data/) don't change the program, so they are left out.
set -eu

[ $# -eq 1 ] || { sed -n '2,7s/^# \{0,1\}//p' "$0" >&2; exit 2; }
cd "$(dirname "$0")/.."
below=$(scripts/crates_below.sh "$1")
folders=()
for name in $below; do
    for folder in src specs proofs; do
        [ ! -d "crates/$name/$folder" ] || folders+=("crates/$name/$folder")
    done
done
{
    for name in $below; do
        grep -E "^$name( [^:]*)?:" crates.txt
    done
    rt version
    find "${folders[@]}" -type f -print0 | LC_ALL=C sort -z | xargs -0 sha256sum
} | sha256sum | cut -d' ' -f1
