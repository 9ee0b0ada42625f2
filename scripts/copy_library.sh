#!/usr/bin/env bash
# Copies the library into a repository of one's own.
#
#     scripts/copy_library.sh FOLDER [NAME ..]
#
# Into FOLDER go the crates that `wolimevar` stands on, and it itself, with their lines of crates.txt, and HANDLES and .gitignore where
# FOLDER has none. A crates.txt that is there keeps its other lines. With NAMEs these crates go too, as `bank`. What stands there under
# one of these names is replaced, so a later call brings the library up to date. The edits that its proofs refuse stay here.
set -eu

[ $# -ge 1 ] || { sed -n '2,8s/^# \{0,1\}//p' "$0" >&2; exit 2; }
mkdir -p "$1"
to=$(cd "$1" && pwd)
shift
cd "$(dirname "$0")/.."
[ "$to" != "$PWD" ] || { echo "copy_library: that is this repository" >&2; exit 2; }

names=$(for name in wolimevar "$@"; do scripts/crates_below.sh "$name"; done | awk '!seen[$0]++')
mkdir -p "$to/crates"
[ -e "$to/crates.txt" ] || echo '# one line a crate: the libraries that it stands on' > "$to/crates.txt"
for name in $names; do
    rm -rf "$to/crates/$name"
    tar -C crates --exclude=out --exclude=must-fail --exclude=wrong-bodies --exclude=BUILD.bazel -cf - "$name" | tar -C "$to/crates" -xf -
    grep -v -E "^$name( [^:]*)?:" "$to/crates.txt" > "$to/crates.txt.new" || true
    grep -E "^$name( [^:]*)?:" crates.txt >> "$to/crates.txt.new"
    mv "$to/crates.txt.new" "$to/crates.txt"
done
for file in HANDLES .gitignore; do
    [ -e "$to/$file" ] || cp "$file" "$to/$file"
done
echo "copied $(wc -w <<<"$names") crates to $to; a program of yours is a line more of its crates.txt: NAME: wolimevar"
