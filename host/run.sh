#!/usr/bin/env bash
# Builds and runs everything under host/: the proved calls against recorded ones, an independent implementation and an
# ordinary one; what each costs; and then host/search/run.sh.
#
#     host/run.sh [COUNT]
#
# At least COUNT random calls are made for data, 100,000 where it is not given, half of them with lists of several PDUs,
# and a fifth as many more for BCH. It needs cargo, rustc, python3, and what host/search/run.sh needs. Variables name the
# tools, as host/machine.sh says, and
#
#     JUZAMBORE_LIB          a folder with ready libjuzambore.a and libgauge.a; without it host/libraries.sh makes both
set -eu
cd "$(dirname "$0")/.."
work=$(mktemp -d)
trap 'rm -r "$work"' EXIT
. host/machine.sh

say() { printf '\n== %s\n' "$*"; }

if [ -z "${JUZAMBORE_LIB:-}" ]; then
    say "host/libraries.sh"
    host/libraries.sh
    JUZAMBORE_LIB=target/staticlib
fi
JUZAMBORE_LIB=$(cd "$JUZAMBORE_LIB" && pwd)
export JUZAMBORE_LIB

# Cargo is told the target by a word of its own, and not by RUSTFLAGS.
flags=$(echo "${RUSTFLAGS:-}" | sed 's/--target[ =][^ ]*//')
target=
if [ -n "$emulator" ]; then
    target=x86_64-unknown-linux-gnu
    $CC -shared -fPIC -o "$work/no_stack_end.so" host/no_stack_end.c
    emulator="$emulator -E LD_PRELOAD=$work/no_stack_end.so"
    export CARGO_TARGET_X86_64_UNKNOWN_LINUX_GNU_LINKER=$CC CARGO_TARGET_X86_64_UNKNOWN_LINUX_GNU_RUNNER=$emulator
    export RUST_BACKTRACE=0 # which would read /proc/self/maps
fi
cargo_does() {
    say "cargo $*"
    RUSTFLAGS=$flags CARGO_TARGET_DIR=$work/built cargo "$1" --quiet --offline --locked ${target:+--target $target} \
        --manifest-path host/Cargo.toml "${@:2}"
}

cargo_does test --workspace --lib --bins
cargo_does run --release --example roundtrip
cargo_does build --release --package trial
trial=$work/built/$target/release/trial

say "the interleaver's sheet: the stored one and the source's entries against the rule"
python3 host/sheet.py | diff - crates/sheet/stdout
python3 host/sheet.py table | diff - <(grep '^ *[0-9]' crates/places/src/sheet.rt)

say "recorded calls; the trains are of host/reference.py"
python3 host/reference.py trains 200 > "$work/trains"
$emulator "$trial" vectors host/vectors/encode.txt host/vectors/decode.txt "$work/trains"

say "random calls"
$emulator "$trial" calls "${1:-100000}"

say "speed"
$emulator "$trial" agree

# What a call takes, start-up left out.
one_call() {
    echo $(($(counted "$trial" run "$@" 1) - $(counted "$trial" run "$@" 0)))
}

modes="1 2 3 4 5 6 7 mixed"
for mode in $modes; do
    echo "encode $mode $(one_call proved encode $mode) $(one_call ordinary encode $mode) 0"
done > "$work/counts"
for mode in $modes; do echo "soften $mode $(one_call proved soften $mode) 0 0"; done >> "$work/counts"
for mode in $modes; do
    echo "decode $mode $(one_call proved decode $mode) $(one_call ordinary decode $mode) $(one_call shape decode $mode)"
done >> "$work/counts"
passes=$(one_call proved passes 6)
sent=$(for mode in $modes; do $emulator "$trial" sent $mode; done | xargs)
$emulator "$trial" mixed > "$work/mixed"
if [ -z "$emulator" ]; then "$trial" times; else sed 's/ .*/ 0 0 0 0/' "$work/counts"; fi > "$work/times"

# What a call takes for all PDUs of the mixed train, each as a train of its own.
parts() {
    sort "$work/mixed" | uniq -c | while read -r times mode length; do
        echo $((times * $(one_call proved "$1" "$mode:$length")))
    done | awk '{ sum += $1 } END { print sum }'
}

# The first file has the PDUs of the mixed train. Its parts also cost what trains of N bits in their modes do, by the
# share that each has of the N bits.
paste -d ' ' "$work/counts" "$work/times" | awk -v passes="$passes" -v encodes="$(parts encode)" \
    -v decodes="$(parts decode)" -v names="$modes" -v sent="$sent" '
    BEGIN {
        row = "%-6s %5s %9s %9s %10s %10s %10s %10s %9s %10s %10s %10s\n"
        printf "\n%-12s %30s %21s %31s %21s\n", "N = 3456", "instructions of a call", "ours over theirs",
            "nanoseconds of a call", "ours over theirs"
        printf row, "call", "mode", "proved", "ordinary", "same shape", "ordinary", "same shape", "proved", "ordinary",
            "same shape", "ordinary", "same shape"
    }
    function some(x) { return x > 0 ? x : "-" }
    function over(ours, theirs) { return theirs > 0 ? sprintf("%.2f", ours / theirs) : "-" }
    NR == FNR {
        share[$1] += $2 / 3456
        next
    }
    {
        printf row, $1, $2, some($3), some($4), some($5), over($3, $4), over($3, $5), some($8), some($9), some($10),
            over($8, $9), over($8, $10)
        if ($1 == "decode" && $2 == 6) whole = $3
        cost[$1, $2] = $3
        if ($2 == "mixed" && $1 != "soften") {
            mixed = mixed sprintf(", %s %s (ordinary %s)", $1, over($3, proved[$1]), over($4, ordinary[$1]))
            alone = alone sprintf(", %s %s", $1, over($3, $1 == "encode" ? encodes : decodes))
        }
        proved[$1] += share[$2] * $3
        ordinary[$1] += share[$2] * $4
    }
    END {
        outside = (whole - passes) / whole
        printf "of a decode in mode 6, %.3f lies outside search and mark, bar 0.25: %s\n", outside,
            outside <= 0.25 ? "held" : "NOT HELD"
        printf "instructions of the mixed train of 16 PDUs over those of its parts, each as a train of its own%s\n", alone
        printf "and over those of its parts by their share of trains of N bits%s\n", mixed
        printf "\ninstructions per sent bit; of a decode what lies outside search and mark, which is mostly the spreading\n"
        printf "%6s %9s %7s %7s %9s\n", "mode", "sent bits", "encode", "soften", "spreading"
        count = split(names, mode)
        split(sent, bits)
        for (k = 1; k <= count; k++)
            printf "%6s %9s %7.2f %7.2f %9.2f\n", mode[k], bits[k], cost["encode", mode[k]] / bits[k],
                cost["soften", mode[k]] / bits[k], (cost["decode", mode[k]] - passes) / bits[k]
    }' "$work/mixed" -
if [ -n "$emulator" ]; then echo "times are not measured: the code ran under an emulator"; fi

say "host/search/run.sh"
LIBRARY=$JUZAMBORE_LIB/libgauge.a host/search/run.sh
