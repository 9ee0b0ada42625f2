#!/usr/bin/env bash
# Refuses each allocation of a program's stored run in turn.
#
#     scripts/refuse_each_allocation.sh CRATE [--rows | --sections | --section PLACE .. | --on INPUT ..] [FIRST [LAST]]
#
# Runs the program of CRATE on its files args and stdin with the first allocation refused, then with the
# second, and so on. Each run must print the file stdout with status 0, or nothing but the line `Memory`
# with status 2. With --on it reads INPUT in place of stdin, by `step -`, or by `vacation -` where INPUT
# ends in .sessions, and must print what stands beside INPUT in the file of its name that ends in .out;
# one build serves all inputs. With --rows, for a program that continues after a row that is out of memory, a
# run may also end with status 0 and as many lines as are stored, of which the first that differs is a
# refusal: later rows see that nothing was changed. With --sections it reads each section of stdin by itself,
# which `----` closes, and must print the section of stdout in its place, which a line `# NAME` opens; with
# --section only those in these places, from 1 on. It ends after LAST, or once forty runs in a row were refused
# nothing. RT names the command, `rt` by default.
set -u

if [ $# -lt 1 ]; then
    sed -n '2,17s/^# \{0,1\}//p' "$0"
    exit 2
fi
crate=$1
shift
sections=
rows=
if [ "${1:-}" = --rows ]; then
    rows=1
    shift
fi
if [ "${1:-}" = --sections ]; then
    sections=all
    shift
fi
while [ "${1:-}" = --section ]; do
    sections="$sections ${2:?}"
    shift 2
done
inputs=()
while [ "${1:-}" = --on ]; do
    inputs+=("$(realpath -e "${2:?}")") || exit 2
    shift 2
done
first=${1:-1}
last=${2:-0}
cd "$(dirname "$0")/.." || exit 2
folder=$(mktemp -d)
trap 'rm -rf "$folder"' EXIT
if ! scripts/build_unproved.sh --refusing "$crate" "$folder/program"; then
    echo "$crate: its program was not built"
    exit 1
fi
cd "crates/$crate" || exit 2

# take_input [INPUT]: sets words, stdin and wanted, to the stored ones where there is no INPUT.
take_input() {
    words=()
    stdin=/dev/null
    local stdout=stdout
    if [ $# -gt 0 ]; then
        words=(step -)
        case $1 in *.sessions) words=(vacation -) ;; esac
        stdin=$1
        stdout=${1%.*}.out
    else
        [ -f args ] && mapfile -t words < args
        [ -f stdin ] && stdin=stdin
    fi
    wanted=$(cat "$stdout") || exit 2
}

# refuse_sections: refuses each allocation of the run on each section of the stored input.
refuse_sections() {
    local count place end=
    awk -v to="$folder/in" 'BEGIN { n = 1 } { print > (to n) } /----$/ { n++ }' stdin
    # Where the last line has the number of the sections, a run of one ends so, too.
    cp stdout "$folder/sections"
    if tail -n 1 stdout | grep -qx 'sections [0-9]*'; then
        sed -i '$d' "$folder/sections"
        end='sections 1'
    fi
    awk -v to="$folder/out" '/^# / { n++ } { print > (to n) }' "$folder/sections"
    count=$(find "$folder" -name 'in[0-9]*' | wc -l)
    if [ "$count" -ne "$(find "$folder" -name 'out[0-9]*' | wc -l)" ]; then
        echo "$crate: stdin and stdout have not as many sections"
        exit 2
    fi
    [ "$sections" = all ] && sections=$(seq "$count")
    for place in $sections; do
        stdin=$folder/in$place
        wanted=$(cat "$folder/out$place"; echo "$end")
        refuse_each "$crate, section $place"
    done
    echo "$crate: $(wc -w <<<"$sections") of $count sections, $total refusals"
}

# is_refused_row: whether the output is as stored up to a line that has a refusal in its place.
is_refused_row() {
    local line
    [ -n "$rows" ] && [ "$(wc -l <<<"$output")" -eq "$(wc -l <<<"$wanted")" ] || return 1
    line=$(diff <(printf '%s\n' "$wanted") <(printf '%s\n' "$output") | sed -n 's/^> //p' | head -n 1)
    [[ $line == *Memory* || $line == *refused* ]]
}

# refuse_each NAME: refuses each allocation of the run on what was taken.
refuse_each() {
    local refused=0 quiet=0 inside=0 unseen=0 n=$first note=$folder/note output status
    while [ "$quiet" -lt 40 ] && { [ "$last" -eq 0 ] || [ "$n" -le "$last" ]; }; do
        rm -f "$note"
        # (for at most as long as the gate runs a program)
        output=$(timeout 120 env -i REFUSED_ALLOCATION="$n" REFUSED_NOTE="$note" "$folder/program" "${words[@]}" < "$stdin" 2>&1)
        status=$?
        if [ "$status" -eq 0 ] && [ "$output" = "$wanted" ]; then
            if [ -e "$note" ]; then
                unseen=$((unseen + 1))
                quiet=0
            else
                quiet=$((quiet + 1))
            fi
        elif [ "$status" -eq 2 ] && [ "$output" = Memory ]; then
            refused=$((refused + 1))
            quiet=0
        elif [ "$status" -eq 0 ] && is_refused_row; then
            inside=$((inside + 1))
            quiet=0
        else
            printf '%s\n' "$output" | tail -n 20
            echo "$1: with allocation $n refused the run ended otherwise (status $status)"
            exit 1
        fi
        n=$((n + 1))
    done
    total=$((total + refused))
    [ "$unseen" -gt 0 ] || unseen=
    echo "$1: $refused refusals, each answered by Memory with status 2${rows:+, and $inside in a row}${unseen:+, and $unseen by what is stored};" \
        "none from allocation $((n - quiet)) on"
}

take_input ${inputs[0]:+"${inputs[0]}"}
total=0
if [ -n "$sections" ]; then
    refuse_sections
elif [ "${#inputs[@]}" -eq 0 ]; then
    refuse_each "$crate"
fi
for input in "${inputs[@]}"; do
    take_input "$input"
    refuse_each "$crate on $(basename "$input")"
done
