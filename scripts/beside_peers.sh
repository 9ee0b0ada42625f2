#!/usr/bin/env bash
# Runs other transactional memories, and locks, beside Wolimevar at the job of `bench` (peers/README.md says what they are).
#
#     scripts/beside_peers.sh [--install] [CONFIG ..]
#
# CONFIG is vac-low-C or vac-high-C, sessions of reservations by C clients, or words-low-T, words-high-T or words-read-T, transactions on
# words by T threads, in which Wolimevar takes no part. Where none is given, it is the first four with 1, 2 and 4 each.
#
# All take turns in each round. Standard output has a line for each run, `config=vac-low-4 round=1 peer=mutex clients=4 .. rate=RATE ..`,
# then a table, then what is left out because a compiler is absent. With --install apt-get installs g++ and ghc where they are absent. The
# status is 1 where a run failed. Environment:
#
#     ROUNDS=3              how often each is run
#     PEERS="mutex .."      only these, by their names in the table
#     PROGRAM=FILE          Wolimevar's program; else the proved one, where it is as the files are, else one built without a proof
#     PEERS_BUILD=FOLDER    where programs are built, outside the repository; else in /tmp
#     TRANSACTIONS=100000 REPEAT=10 SEED=1    sessions of a run, and runs on fresh tables, each with the next seed, that make one line
#     AUDIT=1               each peer's sessions are replayed one after another and compared, as Wolimevar's always are
#     LIMIT=120             seconds of a run
set -u

usage() {
    sed -n '2,19s/^# \{0,1\}//p' "$0" >&2
    exit 2
}

build=$(realpath -m "${PEERS_BUILD:-${TMPDIR:-/tmp}/wolimevar-peers-$(id -u)}")
given=${PROGRAM:+$(realpath -m "$PROGRAM")}
cd "$(dirname "$0")/.." || exit 1
log=$build/build.log
install=
[ "${1:-}" != --install ] || { install=1; shift; }
configs=("$@")
[ $# -gt 0 ] || configs=({vac-low,vac-high,words-low,words-high}-{1,2,4})
needs=$(python3 peers/in_turn.py needs "${configs[@]}") || usage
mkdir -p "$build/bin" || exit 1
: > "$log"

# need COMMAND PACKAGE: whether the compiler is there, if need be once it is installed.
need() {
    command -v "$1" > /dev/null && return
    if [ -n "$install" ]; then
        { apt-get update && DEBIAN_FRONTEND=noninteractive apt-get install -y --no-install-recommends "$2"; } >> "$log" 2>&1
        command -v "$1" > /dev/null && return
        why="$1 can't be installed, see $log"
    else
        why="there is no $1; --install installs it"
    fi
    return 1
}

# compile PROGRAM FOLDER COMMAND ..: unless the program is newer than all in the folder.
compile() {
    local program=$build/bin/$1 sources=$2
    shift 2
    [ -x "$program" ] && [ -z "$(find "$sources" -newer "$program" -print -quit)" ] && return
    rm -f "$program"
    "$@" -o "$program" >> "$log" 2>&1
}

build_rust() {
    local source name
    command -v cargo > /dev/null || { why="there is no cargo, of Rust 1.65 or later"; return 1; }
    CARGO_TARGET_DIR=$build/cargo cargo build --release --offline --locked --manifest-path peers/rust/Cargo.toml >> "$log" 2>&1 || return 1
    for source in peers/rust/src/bin/*.rs; do
        name=$(basename "$source" .rs)
        cp -u "$build/cargo/release/$name" "$build/bin/$name" || return 1
    done
}

build_cpp() {
    local name
    need g++ g++ || return 1
    for name in vacation words; do
        compile $name-libitm peers/cpp g++ -std=c++17 -O2 -fgnu-tm -fno-exceptions -Wall -Wextra -pthread \
            peers/cpp/$name-libitm.cpp || return 1
    done
}

build_haskell() {
    local name
    need ghc ghc || return 1
    for name in vacation words; do
        compile $name-ghc-stm peers/haskell ghc -O2 -threaded -rtsopts -with-rtsopts=-A64m -ipeers/haskell \
            -outputdir "$build/haskell-$name" peers/haskell/$name.hs || return 1
    done
}

build_wolimevar() {
    local name=proust_tool program=$build/bin/wolimevar proved=crates/proust_tool/out/proved state
    if [ -z "$given" ]; then
        state=$(scripts/state_below.sh $name) || return 1
        [ "$state" != "$(cat $proved/state 2> /dev/null)" ] || { given=$proved/$name built=proved; }
    fi
    if [ -n "$given" ]; then
        rm -f "$program.state"
        why="$given can't be copied"
        cp -f "$given" "$program" 2>> "$log"
        return
    fi
    built=unproved
    [ -x "$program" ] && [ "$state" = "$(cat "$program.state" 2> /dev/null)" ] && return
    command -v "${RT:-rt}" > /dev/null || { why="there is no ${RT:-rt}, the toolchain's command"; return 1; }
    scripts/build_unproved.sh --fast $name "$program" >> "$log" 2>&1 && echo "$state" > "$program.state"
}

build_measure() {
    local program=$build/bin/measure state
    state=$(scripts/state_below.sh proust_tool; sha256sum measure/src/*.rs) || return 1
    [ -x "$program" ] && [ "$state" = "$(cat "$program.state" 2> /dev/null)" ] && return
    command -v "${RT:-rt}" > /dev/null || { why="there is no ${RT:-rt}, the toolchain's command"; return 1; }
    scripts/build_unproved.sh --fast measure "$program" >> "$log" 2>&1 && echo "$state" > "$program.state"
}

declare -A names=([rust]="mutex, sharded and TL2" [cpp]="libitm" [haskell]="ghc-stm" [wolimevar]="wolimevar" [measure]="wolimevar-workers")
parts=() left_out=() built=${given:+given}
echo "beside_peers: building what isn't built yet, in some minutes the first time" >&2
for part in $needs; do
    why="it can't be built, see $log"
    if "build_$part"; then
        parts+=("$part")
    else
        left_out+=("${names[$part]}: $why")
        echo "beside_peers: left out: ${left_out[-1]}" >&2
    fi
done
BUILT=$built python3 peers/in_turn.py run "$build/bin" "${parts[*]}" "${configs[@]}"
status=$?
[ ${#left_out[@]} -eq 0 ] || { echo; printf -- '- left out: %s\n' "${left_out[@]}"; }
exit $status
