#!/usr/bin/env bash
# Runs each script and each session file of examples/ that stands beside what it prints, and compares.
#
#     scripts/run_examples.sh
#
# NAME.steps is run by `./proust step`, in examples/explore by `./proust explore`, and NAME.sessions by `./proust vacation`; each must print
# NAME.out with status 0.
set -u

cd "$(dirname "$0")/.." || exit 2
failed=0
count=0
for file in $(find examples -name '*.steps' -o -name '*.sessions' | sort); do
    wanted=${file%.*}.out
    [ -f "$wanted" ] || continue
    case $file in
    *.sessions) command=vacation ;;
    examples/explore/*) command=explore ;;
    *) command=step ;;
    esac
    count=$((count + 1))
    printed=$(mktemp)
    if ! ./proust "$command" "$file" >"$printed" || ! cmp -s "$printed" "$wanted"; then
        echo "$file: it does not print $wanted"
        failed=$((failed + 1))
    fi
    rm -f "$printed"
done
echo "examples: $count run, $failed failed"
[ "$failed" -eq 0 ]
