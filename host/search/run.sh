#!/usr/bin/env bash
# Holds the proved search and mark against brute force and an independent decoder, then races them with other decoders.
#
#     host/search/run.sh
#
# It needs a C compiler, rustc, libosmocore-dev and valgrind, or an emulator. Variables name the tools, as host/machine.sh
# says, and
#
#     LIBRARY                a ready libgauge.a; without it host/libraries.sh proves and makes one
set -eu
cd "$(dirname "$0")/../.."
work=$(mktemp -d)
trap 'rm -r "$work"' EXIT

. host/machine.sh

library=${LIBRARY:-target/staticlib/libgauge.a}
if [ -z "${LIBRARY:-}" ]; then
    host/libraries.sh gauge
fi
rustc="${RUSTC:-rustc} ${RUSTFLAGS:-} -C opt-level=3"
$rustc --crate-type staticlib -o "$work/libyardsticks.a" host/search/yardsticks.rs

shared=(host/search/hearing.c host/search/reference.c "$library" "$work/libyardsticks.a")
cc="${CC:-cc} -O2 -Wall ${CFLAGS:-}"
$cc -o "$work/check" host/search/check.c host/search/brute.c "${shared[@]}" -lpthread -ldl -lm
$cc -o "$work/race" host/search/race.c "${shared[@]}" ${LDFLAGS:-} -losmocore -lpthread -ldl -lm

$emulator "$work/check" 5000 300 60
$emulator "$work/race" agree

# What one train more takes, start-up left out.
one_train() {
    local who=$1 mark=${2:-}
    echo $(($(counted "$work/race" run "$who" 2 $mark) - $(counted "$work/race" run "$who" 1 $mark)))
}

for who in proved shape ordinary osmo; do
    echo "$who $(one_train $who) $([ $who = osmo ] && echo 0 || one_train $who mark)"
done > "$work/counts"
if [ -z "$emulator" ]; then "$work/race" times; else sed 's/ .*/ 0 0/' "$work/counts"; fi > "$work/times"

paste -d ' ' "$work/counts" "$work/times" | awk '
    BEGIN {
        name["proved"] = "proved"; name["shape"] = "same shape in Rust"
        name["ordinary"] = "ordinary Rust"; name["osmo"] = "osmo_conv_decode"
        print "\nN = 3456, rate 3/4    instructions per step   ours over theirs       ns per step   ours over theirs"
        print "                       search    mark    both     search    both     search    both     search    both"
    }
    function over(ours, theirs) { return theirs > 0 ? sprintf("%.2f", ours / theirs) : "-" }
    function one(x) { return x > 0 ? sprintf("%.1f", x) : "-" }
    {
        search = $2 / 3462; both = $3 / 3462
        if (NR == 1) { our_search = search; our_both = both; our_time = $5; our_times = $6 }
        printf "%-20s %8s %7s %7s %10s %7s %10s %7s %10s %7s\n",
            name[$1], one(search), one(both - search), one(both), over(our_search, search), over(our_both, both),
            one($5), one($6), over(our_time, $5), over(our_times, $6)
    }
    END {
        mark = our_both - our_search
        printf "bars: search %.0f of 235, mark %.0f of 230: %s\n", our_search, mark,
            our_search <= 235 && mark <= 230 ? "held" : "NOT HELD"
    }'
if [ -n "$emulator" ]; then echo "times are not measured: the code ran under an emulator"; fi
