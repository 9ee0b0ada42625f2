#!/usr/bin/env bash
# Refuses each allocation of a few short runs in turn: one section for each kind of call that allocates.
#
#     scripts/refuse_few_allocations.sh
#
# It is the short form of refuse_each_allocation.sh, for every day: three programs are built side by side without a proof, and the sections
# below run with the first allocation refused, then with the second, and so on. Each run must print what is stored, or nothing but
# `Memory`. It takes some three minutes of four processors. RT names the command, `rt` by default.
set -u

cd "$(dirname "$0")/.." || exit 2
folder=$(mktemp -d)
trap 'rm -rf "$folder"' EXIT
SECONDS=0

# sections_of CRATE: the titles of those that are run, one a line.
sections_of() {
    case $1 in
    # run_tool, run_script: a map, a priority queue, a commit that is out of memory; a session file.
    script_tests)
        echo "transactions on a map: a script prints its notices records and state"
        echo "collections that interleave: the least taken twice beside an insert between"
        echo "memory refused: a starved commit leaves its number unused"
        # VacWorld::run, run_in_order: two clients that interleave, and sessions one after another.
        echo "two clients book two cars: in one stripe"
        echo "two clients book the last unit: the other one first"
        echo "one after another: a wait is served"
        ;;
    # The shared table: calls on each kind of collection, typed calls, attempts, workers, serve.
    table_tests)
        echo "a map, and what another seat knows of its commit, by typed calls"
        echo "a transaction on each kind of collection that is left open"
        echo "attempts of jobs"
        echo "two jobs that each write a word of their own"
        echo "a session is served by one worker, and the other has none"
        ;;
    esac
}

# places_of CRATE: the words that name these sections by their places in the stored output, or the allocations that are refused.
places_of() {
    local title place
    # Of the sequential model and its audit, and bases of each kind: the first rows.
    [ "$1" = collection_tests ] && echo 1 480
    sections_of "$1" | while IFS= read -r title; do
        place=$(grep '^# ' "crates/$1/stdout" | grep -nxF "# $title" | head -n 1 | cut -d: -f1)
        echo "--section ${place:-of_no_such_title}"
    done
}

crates="collection_tests script_tests table_tests"
for crate in $crates; do
    # The words are told apart by their spaces.
    # shellcheck disable=SC2046
    scripts/refuse_each_allocation.sh "$crate" $(places_of "$crate") > "$folder/$crate" 2>&1 &
    echo $! > "$folder/$crate.run"
done
failed=0
for crate in $crates; do
    wait "$(cat "$folder/$crate.run")" || failed=$((failed + 1))
    cat "$folder/$crate"
done
echo "refused allocations, in short: $(wc -w <<<"$crates") programs, $failed failed, $SECONDS seconds"
[ "$failed" -eq 0 ]
