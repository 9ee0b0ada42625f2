#!/usr/bin/env bash
# Draws the pictures of docs/pictures from the figures beside them.
#
#     scripts/plot.sh                      draws each NAME.svg from its figures
#     scripts/plot.sh measure [NAME ..]    measures the figures anew, in about an hour, or those named alone, and draws
#
# Figures are lines of numbers with commas between them, after a line of names; a line with # says when, on what machine and by what they
# were measured. Titles are made of them, too, so a picture never says what its figures don't.
#
# NAME is sessions, transactions, gates, sizes, refusals or peers; peers, other transactional memories as scripts/beside_peers.sh runs them,
# are measured where they are named. Measure on an idle machine. ROUNDS says how often each is measured, three times where it is left out;
# PROGRAMS names a folder that has the programs measure and proust_tool, which are built where it is left out.
#
# It draws with gnuplot, which it installs where it isn't there.
set -eu

usage() {
    sed -n '2,14s/^# \{0,1\}//p' "$0" >&2
    exit 2
}

cd "$(dirname "$0")/.."
figures=docs/pictures
rounds=${ROUNDS:-3}

# ---- figures

# The lines that say when, where and by what.
head_of() {
    local processors model
    processors=$(nproc)
    model=$(sed -n 's/^model name[^:]*: //p' /proc/cpuinfo | head -n 1)
    echo "# $(date -u +%F): $processors processors, $model"
    echo "# $1, $rounds times: a mean, the least and the most"
}

# The mean, the least and the most of the last column, by the columns before it, in the order in which they first came.
means() {
    awk -F, -v OFS=, '{
        key = $1; for (i = 2; i < NF; i++) key = key OFS $i
        if (!(key in count)) { order[++keys] = key; least[key] = most[key] = $NF }
        count[key]++; sum[key] += $NF
        if ($NF < least[key]) least[key] = $NF
        if ($NF > most[key]) most[key] = $NF
    } END { for (k = 1; k <= keys; k++) { key = order[k]; print key, sum[key] / count[key], least[key], most[key] } }'
}

repeat() {
    local round
    for ((round = 0; round < rounds; round++)); do "$@"; done
}

# columns NAME ..: of the rows of `measure --times csv`, the columns of these names. Its line of names comes again with each run.
columns() {
    awk -F, -v OFS=, -v names="$*" '
        BEGIN { count = split(names, name, " ") }
        NR == 1 { head = $0; for (i = 1; i <= NF; i++) at[$i] = i }
        $0 == head { next }
        {
            line = ""
            for (i = 1; i <= count; i++) {
                if (!(name[i] in at)) { print "plot: there is no column " name[i] > "/dev/stderr"; exit 1 }
                line = line (i > 1 ? OFS : "") $(at[name[i]])
            }
            print line
        }'
}

measure_sessions() {
    head_of "measure sessions"
    echo "contention,items,program,clients,thousand_a_second,least,most"
    repeat "$1" --times csv sessions | columns contention items program clients thousand_a_second | means
}

measure_transactions() {
    local threads
    head_of "measure engine"
    echo "on,writes_of_ten,program,threads,thousand_a_second,least,most"
    {
        repeat "$1" --times csv engine
        for threads in 1 2 4; do repeat "$1" --times csv engine 4 5 $threads 200000; done
    } | columns on writes_of_ten program threads thousand_a_second | grep -v ',clients,' | means
}

# One run of a map over one gate and over eight, and of a queue in one lane and in four.
gates_of() {
    local threads parts
    for threads in 1 2 4; do
        for parts in 1 8; do "$1" --times csv gated 1 $parts $threads 500000; done
        for parts in 1 4; do "$1" --times csv gated 2 $parts $threads 250000; done
    done | columns on parts threads thousand_a_second
}

measure_gates() {
    head_of "measure gated"
    echo "on,parts,threads,thousand_a_second,least,most"
    repeat gates_of "$1" | means
}

measure_sizes() {
    head_of "measure bases"
    echo "on,stripes,holds,microseconds,least,most"
    repeat "$1" --times csv bases | columns on put stripes holds microseconds |
        awk -F, -v OFS=, '$4 > 1 { print $2 == "later" ? "later ones" : $1, $3, $4, $5 }' | means
}

# One run of `bench` with four clients: its refusals by cause.
refusals_of() {
    local tool=$1 contention=$2 items=$3
    shift 3
    "$tool" bench --times csv --clients 4 --transactions 40000 --relations "$items" "$@" 2>&1 > /dev/null | awk -F, -v OFS=, \
        -v contention="$contention" -v items="$items" '
        /^run_seconds,/ { for (i = 1; i <= NF; i++) at[$i] = i; named = 1; next }
        named { print contention, items, $at["sessions"], $at["moved"], $at["invalid"], $at["busy"], $at["gate_busy"], $at["stale"] }'
}

measure_refusals() {
    local items
    head_of "proust_tool bench --clients 4 --transactions 40000" | sed 's/: a mean.*/: means/'
    echo "contention,items,sessions,moved,invalid,busy,gate_busy,stale"
    for items in 10000 1000 100; do
        repeat refusals_of "$1" low $items --queries 2 --percent-queried 90 --percent-user 98
    done | means_of_all
    for items in 10000 1000 100; do
        repeat refusals_of "$1" high $items --queries 4 --percent-queried 60 --percent-user 90
    done | means_of_all
}

means_of_all() {
    awk -F, -v OFS=, '{
        key = $1 OFS $2
        if (!(key in count)) order[++keys] = key
        count[key]++; for (i = 3; i <= NF; i++) sum[key, i] += $i; columns = NF
    } END {
        for (k = 1; k <= keys; k++) {
            line = order[k]; for (i = 3; i <= columns; i++) line = line OFS int(sum[order[k], i] / count[order[k]] + 0.5)
            print line
        }
    }'
}

measure_peers() {
    head_of "scripts/beside_peers.sh"
    echo "contention,program,clients,thousand_a_second,least,most"
    PEERS="" PROGRAM=$1 ROUNDS=$rounds scripts/beside_peers.sh vac-{low,high}-{1,2,4} | awk -v OFS=, '/^config=/ {
        delete of
        for (i = 1; i <= NF; i++) { split($i, word, "="); of[word[1]] = word[2] }
        split(of["config"], config, "-")
        if ("rate" in of) print config[2], of["peer"], config[3], of["rate"] / 1000
    }' | means
}

# new NAME COMMAND ..: the figures NAME are what the command prints, once it has ended well.
new() {
    local name=$1
    shift
    echo "plot: measuring $name" >&2
    "$@" > "$figures/$name.new"
    mv "$figures/$name.new" "$figures/$name"
}

# measure [NAME ..]
measure() {
    local program name tool
    program=${PROGRAMS:-$(mktemp -d)}
    [ $# -gt 0 ] || set -- sessions transactions gates sizes refusals
    for name in "$@"; do
        tool=measure
        case $name in
        refusals | peers) tool=proust_tool ;;
        sessions | transactions | gates | sizes) ;;
        *) usage ;;
        esac
        [ -x "$program/$tool" ] || scripts/build_unproved.sh --fast $tool "$program/$tool"
        new "$name.csv" "measure_$name" "$program/$tool"
    done
    [ -n "${PROGRAMS:-}" ] || rm -rf "$program"
}

# ---- pictures

# figure NAME COLUMN PATTERN: the number in this column of the first line that has this pattern at its beginning.
figure() {
    awk -F, -v column="$2" -v pattern="^$3" '$0 ~ pattern { print $column; exit }' "$figures/$1"
}

ratio() {
    awk -v a="$1" -v b="$2" 'BEGIN { printf "%.1f", a / b }'
}

# What is written under a picture: when and where its figures were measured.
noted() {
    sed -n 's/^# //p' "$figures/$1" | head -n 1
}

# draw NAME FIGURES TITLE < COMMANDS: grey text and lines of middle brightness, legible on white and on black, and no ground.
draw() {
    local name=$1 from=$2 title=$3
    {
        cat <<'END'
set terminal svg size 760,420 font "Helvetica,14" enhanced dynamic
set border 3 linecolor rgb "#6e7781"
set tics nomirror textcolor rgb "#6e7781"
set xlabel textcolor rgb "#6e7781"
set ylabel textcolor rgb "#6e7781"
set tmargin at screen 0.80
set lmargin at screen 0.11
set rmargin at screen 0.97
set bmargin at screen 0.20
set key at screen 0.54,0.905 center top horizontal maxrows 2 samplen 3 Left reverse textcolor rgb "#6e7781"
set grid ytics linecolor rgb "#6e7781" linewidth 0.4 dashtype 3
set datafile separator ","
set linetype 1 linecolor rgb "#2f81f7" linewidth 2.5 pointtype 7 pointsize 0.7
set linetype 2 linecolor rgb "#db6d28" linewidth 2.5 pointtype 5 pointsize 0.7
set linetype 3 linecolor rgb "#2da44e" linewidth 2.5 pointtype 9 pointsize 0.8
set linetype 4 linecolor rgb "#a371f7" linewidth 2.5 pointtype 13 pointsize 0.8
set linetype 5 linecolor rgb "#bf8700" linewidth 2.5 pointtype 11 pointsize 0.8
set linetype 6 linecolor rgb "#8b949e" linewidth 2.5 pointtype 4 pointsize 0.7
set linetype 7 linecolor rgb "#e5534b" linewidth 2.5 pointtype 6 pointsize 0.7
set linetype cycle 7
END
        echo "set output '$figures/$name.svg'"
        echo "set label 98 \"$title\" at screen 0.02,0.955 noenhanced font ',16' textcolor rgb '#6e7781'"
        echo "set label 99 \"$(noted "$from")\" at screen 0.02,0.03 noenhanced font ',10' textcolor rgb '#6e7781'"
        cat
    } | gnuplot
    echo "$figures/$name.svg"
}

# rows FIGURES PATTERN: a source of data for gnuplot, the lines that have this pattern at their beginning.
rows() {
    echo "'< grep -E \"^$2,\" $figures/$1'"
}

# contention NAME: one of the pictures of sessions.
draw_sessions() {
    local contention=$1 seats lock
    seats=$(figure sessions.csv 5 "$contention,10000,seats,4,")
    lock=$(figure sessions.csv 5 "$contention,10000,one lock,4,")
    draw "sessions_$contention" sessions.csv \
        "Four clients on 10,000 items serve $(ratio "$seats" "$lock") times what they serve under one lock" <<END
set xlabel "clients (${contention} contention)"
set ylabel "thousand sessions a second"
set xtics (1, 2, 4)
set xrange [0.8:4.2]
set yrange [0:*]
plot $(rows sessions.csv "$contention,10000,seats") using 4:5:6:7 with yerrorlines linetype 1 title "Wolimevar, 10,000 items", \\
    $(rows sessions.csv "$contention,100,seats") using 4:5:6:7 with yerrorlines linetype 1 dashtype 2 title "Wolimevar, 100 items", \\
    $(rows sessions.csv "$contention,10000,one lock") using 4:5:6:7 with yerrorlines linetype 2 title "one lock, 10,000 items", \\
    $(rows sessions.csv "$contention,100,one lock") using 4:5:6:7 with yerrorlines linetype 2 dashtype 2 title "one lock, 100 items"
END
}

draw_transactions() {
    local words map source title
    words=$(ratio "$(figure transactions.csv 5 "words,1,seats,4,")" "$(figure transactions.csv 5 "words,1,seats,1,")")
    map=$(ratio "$(figure transactions.csv 5 "map,1,seats,4,")" "$(figure transactions.csv 5 "map,1,seats,1,")")
    title="Four threads make $words times the transactions of one on words, and $map times on one map"
    source="$(rows transactions.csv "words,1,seats") using 4:5:6:7 with yerrorlines linetype 1 title 'words', \\
    $(rows transactions.csv "map,1,seats") using 4:5:6:7 with yerrorlines linetype 3 title 'one map', \\
    $(rows transactions.csv "words,1,one lock") using 4:5:6:7 with yerrorlines linetype 2 title 'words, one lock', \\
    $(rows transactions.csv "map,1,one lock") using 4:5:6:7 with yerrorlines linetype 2 dashtype 2 title 'one map, one lock'"
    if grep -q '^queue,' "$figures/transactions.csv"; then
        source="$source, $(rows transactions.csv "queue,5,seats") using 4:5:6:7 with yerrorlines linetype 4 title 'one queue'"
    fi
    draw transactions transactions.csv "$title" <<END
set xlabel "threads (four calls a transaction; of ten calls one changes something, on the queue five)"
set ylabel "thousand transactions a second"
set xtics (1, 2, 4)
set xrange [0.8:4.2]
set logscale y
set ytics ("200" 200, "1,000" 1000, "3,000" 3000, "10,000" 10000, "30,000" 30000)
set yrange [200:30000]
set key maxrows 2 samplen 2 font ",12"
plot $source
END
}

draw_gates() {
    local map queue
    map=$(ratio "$(figure gates.csv 4 "map,8,4,")" "$(figure gates.csv 4 "map,1,4,")")
    queue=$(ratio "$(figure gates.csv 4 "queue,4,4,")" "$(figure gates.csv 4 "queue,1,4,")")
    draw gates gates.csv "Four threads: eight gates make $map times what one makes, four lanes $queue times" <<END
set xlabel "threads (four calls on a map, of which one of ten is a put; or an item that goes round in a queue)"
set ylabel "thousand transactions a second"
set xtics (1, 2, 4)
set xrange [0.8:4.2]
set yrange [0:*]
plot $(rows gates.csv "map,8") using 3:4:5:6 with yerrorlines linetype 1 title "a map over eight gates", \\
    $(rows gates.csv "map,1") using 3:4:5:6 with yerrorlines linetype 1 dashtype 2 title "over one gate", \\
    $(rows gates.csv "queue,4") using 3:4:5:6 with yerrorlines linetype 4 title "a queue in four lanes", \\
    $(rows gates.csv "queue,1") using 3:4:5:6 with yerrorlines linetype 4 dashtype 2 title "in one lane"
END
}

draw_sizes() {
    local few many
    few=$(figure sizes.csv 4 "queue,1,1000,")
    many=$(figure sizes.csv 4 "queue,1,1000000,")
    draw sizes sizes.csv "A queue of a million items costs $many microseconds a transaction, one of a thousand $few" <<END
set xlabel "items or elements held"
set ylabel "microseconds a transaction"
set logscale x
set xtics ("1,000" 1000, "10,000" 10000, "100,000" 100000, "1,000,000" 1000000)
set xrange [700:1500000]
set yrange [0:12]
plot $(rows sizes.csv "queue,1") using 3:4 with linespoints linetype 1 title "queue", \\
    $(rows sizes.csv "priority queue,1") using 3:4 with linespoints linetype 2 title "priority queue, the least put back", \\
    $(rows sizes.csv "later ones,1") using 3:4 with linespoints linetype 3 title "priority queue, a later one put in"
END
}

draw_refusals() {
    local share
    share=$(awk -F, '/^(low|high)/ { s = 100 * $4 / ($4 + $5 + $6 + $7 + $8); if (least == "" || s < least) least = s; if (s > most) most = s }
        END { printf "%.0f to %.0f", least, most }' "$figures/refusals.csv")
    draw refusals refusals.csv "$share of 100 refused attempts had read what another commit changed (Moved)" <<END
set xlabel "contention, and items a kind (four clients)"
set ylabel "refused attempts for 100 sessions"
set style data histograms
set style histogram rowstacked
set style fill solid 0.9 noborder
set boxwidth 0.7
set yrange [0:*]
plot '< grep -E "^(low|high)," $figures/refusals.csv' using (100 * \$4 / \$3):xticlabels(strcol(1) . " " . strcol(2)) linetype 1 title "Moved", \\
    '' using (100 * \$5 / \$3) linetype 2 title "Invalid", '' using (100 * \$6 / \$3) linetype 3 title "Busy", \\
    '' using (100 * \$7 / \$3) linetype 4 title "GateBusy", '' using (100 * \$8 / \$3) linetype 5 title "Stale"
END
}

# Each program that is measured beside this one.
draw_peers() {
    local contention=$1 ours lock plot="" name
    ours=$(figure peers.csv 4 "$contention,wolimevar,4,")
    lock=$(figure peers.csv 4 "$contention,mutex,4,")
    while read -r name; do
        plot="$plot${plot:+, }$(rows peers.csv "$contention,$name") using 3:4:5:6 with yerrorlines title '$name' noenhanced"
    done < <(awk -F, -v contention="$contention" '$1 == contention && !seen[$2]++ { print $2 }' "$figures/peers.csv")
    draw "peers_$contention" peers.csv "Four clients: Wolimevar serves $(ratio "$ours" "$lock") times what one lock serves" <<END
set xlabel "clients (${contention} contention)"
set ylabel "thousand sessions a second"
set xtics (1, 2, 4)
set xrange [0.8:4.2]
set logscale y
set tmargin at screen 0.74
set key maxrows 3 font ",12"
plot $plot
END
}

draw_all() {
    if ! command -v gnuplot > /dev/null; then
        apt-get update > /dev/null
        apt-get install -y --no-install-recommends gnuplot-nox > /dev/null
    fi
    draw_sessions low
    draw_sessions high
    draw_transactions
    draw_sizes
    draw_refusals
    [ ! -f "$figures/gates.csv" ] || draw_gates
    if [ -f "$figures/peers.csv" ]; then
        draw_peers low
        draw_peers high
    fi
}

case ${1:-draw} in
draw) ;;
measure)
    shift
    measure "$@"
    ;;
*) usage ;;
esac
draw_all
