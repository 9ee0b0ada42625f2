#!/usr/bin/env bash
# Tries the wrong bodies that the gate does not try.
#
#     scripts/try_wrong_bodies.sh [NAME..]
#
# Each crates/NAME/wrong-bodies/*.edit has the form of an edit of must-fail/, and the prover has to refuse it too. In a copy of
# the tree they are put in place of must-fail/, and `rt must-fail` tries them crate by crate, of all crates where none is named.
# What earlier checks kept in out/ is copied with the tree, so a proved tree is quickest. At the end it prints how many were
# refused, and how many of these only because a proof file names what the edit takes away, which says little of a contract; it
# fails if one was not refused. RT names the command, `rt` by default.
set -u

case "${1:-}" in
-h | --help)
    sed -n '2,10s/^# \{0,1\}//p' "$0"
    exit 2
    ;;
esac
rt=${RT:-rt}
cd "$(dirname "$0")/.." || exit 2

names=("$@")
if [ ${#names[@]} -eq 0 ]; then
    for folder in crates/*/wrong-bodies; do
        [ -d "$folder" ] && names+=("$(basename "$(dirname "$folder")")")
    done
fi
for name in "${names[@]}"; do
    if [ ! -d "crates/$name/wrong-bodies" ]; then
        echo "$name: there is no folder crates/$name/wrong-bodies"
        exit 2
    fi
done

copy=$(mktemp -d)
trap 'rm -rf "$copy"' EXIT
cp -r crates crates.txt HANDLES "$copy"/ || exit 2
rm -rf "$copy"/crates/*/must-fail
for name in "${names[@]}"; do
    mv "$copy/crates/$name/wrong-bodies" "$copy/crates/$name/must-fail"
done
cd "$copy" || exit 2

refused=0
weak=0
wrong=0
for name in "${names[@]}"; do
    count=$(find "crates/$name/must-fail" -name '*.edit' | wc -l)
    output=$("$rt" must-fail "$name" 2>&1)
    good=$(grep -c ': refused, as it must be' <<<"$output")
    named=$(grep -c 'refused, as it must be (only because a proof file' <<<"$output")
    grep 'refused, as it must be (only because a proof file' <<<"$output"
    if [ "$good" -ne "$count" ]; then
        grep -v ': refused, as it must be' <<<"$output"
    fi
    echo "$name: $good of $count refused"
    refused=$((refused + good))
    weak=$((weak + named))
    wrong=$((wrong + count - good))
done
echo "wrong bodies: $refused refused, $weak of them by a proof's names alone; $wrong not refused"
[ "$wrong" -eq 0 ]
