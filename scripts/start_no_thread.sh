#!/usr/bin/env bash
# Runs the program where no thread can be started, and looks that what no worker took is printed as not started, and nothing else is wrong.
#
#     scripts/start_no_thread.sh [COMMAND ..]
#
# COMMAND is how the program is run, crates/proust_tool/out/proust_tool where it is left out. The limit is that of a user's processes,
# `ulimit -u 1`. It doesn't hold for root, who therefore runs the program as the user 65534, by whom it has to be reached.
set -u

cd "$(dirname "$0")/.." || exit 2
[ $# -gt 0 ] || set -- crates/proust_tool/out/proust_tool
as=()
[ "$(id -u)" -ne 0 ] || as=(setpriv --reuid 65534 --regid 65534 --clear-groups)
failed=0

# alone NAME WORD..: the program, run with these words on standard input, must print what the file descriptor 3 has, with status 0.
alone() {
    local name=$1 printed
    shift
    if ! printed=$("${as[@]}" bash -c 'ulimit -u 1 && exec "$@"' bash "${command[@]}" "$@") || [ "$printed" != "$(cat <&3)" ]; then
        printf '%s: it printed\n%s\n' "$name" "$printed"
        failed=$((failed + 1))
    fi
}

command=("$@")

# The first of three workers has the sessions 1 and 4.
alone 'a session file' vacation --workers 3 - << 'FILE' 3<< 'WANTED'
have car 1 3 50
reserve 7 car 1
reserve 8 car 1
reserve 9 car 1
reserve 7 car 1
FILE
1 1: booked 1 1 50, nothing, nothing
2 missed: not started
3 missed: not started
4 1: already 1, nothing, nothing
car 1: total 3 used 1 free 2 price 50
customer 7: car 1 1 50
audit ok
balanced yes
WANTED

# Each of 64 workers has ten sessions.
alone 'drawn sessions' bench --clients 64 --transactions 640 --seed 3 < /dev/null 3<< 'WANTED'
clients 64
sessions 640
missed 630
audit ok
balanced yes
WANTED

echo "where no thread can be started: 2 run, $failed failed"
[ "$failed" -eq 0 ]
