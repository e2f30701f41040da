#!/usr/bin/env bash
# Builds the product and the baseline, checks that both judge the same batches alike, and times them on these in one go. The
# table that it prints is also left as SCRATCH/table.md.
#
# bench/run.sh [SCRATCH [ROUNDS [SEED]]]: all that is built and written goes to the folder SCRATCH and stays there, so that a
# later run builds only what has changed. The checkout stays as it is.
set -eu
cd "$(dirname "$0")/.."
scratch=${1:-${TMPDIR:-/tmp}/kolvezar-bench}
rounds=${2:-9}
seed=${3:-1}
kinds='small wide long changes16 many'
mkdir -p "$scratch"
scratch=$(cd "$scratch" && pwd)
copy=$scratch/product
batches=$scratch/batches
timings=$scratch/timings
plain=$scratch/target/release

# For the processor that the product is built for.
build_baseline() {
    CARGO_TARGET_DIR=$scratch/target RUSTFLAGS='-C target-cpu=x86-64-v2' \
        cargo build --quiet --release --offline --manifest-path bench/baseline/Cargo.toml
}

# The program of the parts is no crate of the repository. In the copy it becomes one, which may use what `judge` uses.
copy_product() {
    mkdir -p "$copy"
    rm -rf "$copy"/crates/*/src "$copy"/crates/*/specs "$copy"/crates/*/proofs
    tar --exclude=out --exclude=target --exclude=must-fail -cf - crates crates.txt | tar -C "$copy" -xf -
    mkdir -p "$copy/crates/parts/src"
    cp bench/parts/main.rt.txt "$copy/crates/parts/src/main.rt"
    sed 's/^judge:/parts:/' crates.txt | grep '^parts:' >"$scratch/entry"
    cat "$scratch/entry" >>"$copy/crates.txt"
}

# Proves and builds a program of the copy.
build_product() {
    echo "building $1" >&2
    if ! (cd "$copy/crates/$1" && rt run </dev/null) >"$scratch/$1.log" 2>&1; then
        tail -5 "$scratch/$1.log" >&2
        exit 1
    fi
}

# The programs of one side: `program product judge`, `program baseline parts`.
program() {
    case $1 in
    product) echo "$copy/crates/$2/out/$2" ;;
    baseline) echo "$plain/$2" ;;
    esac
}

# Both must print the same verdicts.
check_verdicts() {
    for side in product baseline; do
        "$(program $side judge)" <"$batches/$1" >"$scratch/verdicts.$side"
    done
    cmp "$scratch/verdicts.product" "$scratch/verdicts.baseline"
}

# Appends a line: side, batch, part, nanoseconds, and what the part answers. Of a process the processor's time counts, since it
# is told the same on a busy machine; it is told to a thousandth of a second, so the faster side is run ten times.
time_judge() {
    local judge times spent
    judge=$(program "$1" judge)
    times=$([ "$1" = product ] && echo 1 || echo 10)
    spent=$({
        TIMEFORMAT='%3U %3S'
        time for ((i = 0; i < times; i++)); do
            "$judge" <"$batches/$2" >/dev/null
        done
    } 2>&1)
    echo "$spent" | awk -v side="$1" -v batch="$2" -v cases="$((times * ($(wc -l <"$batches/$2") - 2)))" '
        { printf "%s %s judge %.1f -\n", side, batch, ($1 + $2) * 1e9 / cases }' >>"$timings"
}

time_parts() {
    "$(program "$1" parts)" <"$batches/$2" 2>/dev/null | sed "s/^/$1 $2 /" >>"$timings"
}

# The shortest time of each part, side by side. Both sides must have answered the same.
print_table() {
    awk -v kinds="$kinds" '
        function row(title, ours, theirs) {
            a = best["product", kind, ours]
            b = best["baseline", kind, theirs]
            printf "| %s | %s | %.1f | %.1f | %.3f |\n", kind, title, a, b, b / a
        }
        {
            at = $1 SUBSEP $2 SUBSEP $3
            if (!(at in best) || $4 < best[at]) best[at] = $4
            said = $2 SUBSEP $3
            if (said in answer && answer[said] != $5) {
                print "answers differ: " $0 >"/dev/stderr"
                wrong = 1
            }
            answer[said] = $5
        }
        END {
            print "| Batch | Part | Product, ns | Baseline, ns | Ratio |"
            print "|---|---|---|---|---|"
            for (i = 1; i <= split(kinds, names, " "); i++) {
                kind = names[i]
                row("judge, the whole process", "judge", "judge")
                row("reading a line", "read", "read")
                row("load", "load", "load")
                row("run", "run", "run")
                row("run, against marking each step", "run", "stepwise")
                row("marking", "mark", "mark")
                row("looking", "look", "look")
                row("looking, against replaying", "look", "replay")
                row("replaying", "replay", "replay")
            }
            exit wrong
        }' "$timings"
}

build_baseline
copy_product
build_product judge
build_product parts
mkdir -p "$batches"
for kind in $kinds; do
    "$plain/generate" "$kind" "$seed" ${CASES:+"$CASES"} >"$batches/$kind"
    check_verdicts "$kind"
done
: >"$timings"
for ((round = 0; round < rounds; round++)); do
    for kind in $kinds; do
        for side in product baseline; do
            time_judge "$side" "$kind"
            time_parts "$side" "$kind"
        done
    done
done
print_table | tee "$scratch/table.md"
