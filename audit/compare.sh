#!/usr/bin/env bash
# Compares the proved program with the replay written from the documents, and times both.
#
#     audit/compare.sh [PROGRAM [SEEDS [LENGTH]]]
#
# PROGRAM is crates/ring_trace/out/ring_trace of the repository if none is given. SEEDS traces (1000) are made, of
# LENGTH records (15000) where the sort of trace does not say otherwise, and one of ten million records. It stops at the
# first difference, with status 1.
set -euo pipefail
export LC_ALL=C

audit=$(cd "$(dirname "${BASH_SOURCE[0]}")" && pwd)
program=${1:-$audit/../crates/ring_trace/out/ring_trace}
seeds=${2:-1000}
length=${3:-15000}
large=10000000

if [[ ! -f $program || ! -x $program ]]; then
    echo "no program: $program (built by rt run in crates/ring_trace)" >&2
    exit 2
fi
program=$(cd "$(dirname "$program")" && pwd)/$(basename "$program")

cd "$audit"
cargo build --release --offline --quiet --target-dir target
generate=target/release/generate
replay=target/release/replay
explain=target/release/explain
work=$(mktemp -d target/compare.XXXXXX)

# Where two outputs differ, says so and stops; the trace and the outputs stay.
differ() {
    echo "$1"
    "$explain" "$work/trace" "$work/ours" "$work/theirs" || true
    echo "  files:   audit/$work"
    exit 1
}

# One trace, given the arguments of the generator.
compare() {
    local status=0
    "$generate" "$@" > "$work/trace"
    "$replay" < "$work/trace" > "$work/ours"
    "$program" < "$work/trace" > "$work/theirs" || status=$?
    cmp -s "$work/ours" "$work/theirs" || differ "DIFFERENCE: generate $* (status of the program: $status)"
    ((status < 126)) || differ "CRASH: generate $* (status of the program: $status)"
    ((status == 0)) || failed=$((failed + 1))
    awk '{ kind = $1 == "E" || $1 == "X" || $2 == "ffffffff" ? $0 : $1; lines[kind]++ }
        END { for (kind in lines) print kind "\t" lines[kind] }' "$work/ours" >> "$work/tally"
}

# How many lines of each sort there were, and how many records they answer.
tally() {
    sort "$work/tally" | awk -F '\t' '
        { lines[$1] += $2; if ($1 != last) { kind[++places] = $1; last = $1 } }
        END {
            for (i = 1; i <= places; i++) {
                printf "  %-10s %11d\n", kind[i], lines[kind[i]]
                if (kind[i] !~ /^X/) records += lines[kind[i]]
            }
            printf "%d records answered alike\n", records
        }'
}

failed=0
: > "$work/tally"
for ((seed = 0; seed < seeds; seed++)); do
    compare "$seed" "$length"
done
echo "$seeds seeds compared, no difference. Lines:"
tally
echo "the program ended with a status other than 0 on $failed traces"

: > "$work/tally"
compare 0 "$large" mixed
echo "one trace of $large records compared, no difference"

# Real time and processor time of one run, in seconds.
run_time() {
    local TIMEFORMAT='%R %U %S'
    { time "$1" < "$work/trace" > /dev/null 2> /dev/null; } 2>&1
}

for _ in 1 2 3; do
    echo "replay $(run_time "$replay")"
    echo "proved $(run_time "$program")"
done | awk -v records="$large" '
    {
        cpu = $3 + $4
        if (!($1 in real) || $2 < real[$1]) real[$1] = $2
        if (!($1 in busy) || cpu < busy[$1]) busy[$1] = cpu
    }
    function show(name) {
        printf "  %-7s %7.3f s   processor %7.3f s   %5.1f million records a second\n",
            name, real[name], busy[name], records / real[name] / 1e6
    }
    END {
        print "best of three runs each:"
        show("replay")
        show("proved")
        printf "  proved / replay: %.2f (processor: %.2f)\n",
            real["proved"] / real["replay"], busy["proved"] / busy["replay"]
    }'
rm -r "$work"
