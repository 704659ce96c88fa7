#!/usr/bin/env bash
# perft.sh [RUNS]: legal play's leaves a second on each make of board, over the positions of the program perft: the best of RUNS runs, 5 if not given.
# Proves and builds the program bench_nodes first, where that is not done yet.
set -euo pipefail
shopt -s inherit_errexit
runs=${1:-5}
top=$(cd "$(dirname "$0")/.." && pwd)
crate=$top/crates/bench_nodes
(cd "$crate" && rt run -- bitboard >/dev/null </dev/null)

# The nanoseconds of the fastest of the runs on a make of board; the leaves go to a file.
fastest() {
    local make=$1 leaves=$2
    local best='' begin took run
    for ((run = 0; run < runs; run++)); do
        begin=$(date +%s%N)
        "$crate/out/bench_nodes" "$make" <"$top/crates/perft/stdin" >"$leaves"
        took=$(($(date +%s%N) - begin))
        if [ -z "$best" ] || [ "$took" -lt "$best" ]; then
            best=$took
        fi
    done
    echo "$best"
}

leaves=$(mktemp)
trap 'rm -f "$leaves"' EXIT
for make in mailbox bitboard; do
    nanoseconds=$(fastest "$make" "$leaves")
    awk -v make="$make" -v ns="$nanoseconds" \
        '{ sum += $1 } END { printf "%s: %d leaves in %.3f s, %d leaves a second\n", make, sum, ns / 1e9, sum * 1e9 / ns }' "$leaves"
done
