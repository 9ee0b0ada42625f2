#!/usr/bin/env bash
# The crates of this repository that a crate stands on, and the crate itself, one a line, each below the ones that stand on it.
#
#     scripts/crates_below.sh NAME
#
# They are read from crates.txt; what it doesn't list is the toolchain's, and is left out.
set -eu

[ $# -eq 1 ] || { sed -n '2,6s/^# \{0,1\}//p' "$0" >&2; exit 2; }
cd "$(dirname "$0")/.."
awk -v top="$1" '
    { sub(/#.*/, "") }
    /:/ {
        split($0, side, ":")
        split(side[1], word, " ")
        below[word[1]] = side[2]
    }
    function visit(name,    list, count, i) {
        if (!(name in below) || name in seen) return
        seen[name] = 1
        count = split(below[name], list, " ")
        for (i = 1; i <= count; i++) visit(list[i])
        print name
    }
    END {
        if (!(top in below)) {
            print top ": no such crate in crates.txt" > "/dev/stderr"
            exit 1
        }
        visit(top)
    }
' crates.txt
