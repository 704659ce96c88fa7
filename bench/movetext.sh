#!/usr/bin/env bash
# movetext.sh [TIMES]: the instructions that matching a move text takes, and that writing one takes, on each make of board.
# valgrind counts a run that does it TIMES times (200 if not given) and one that does it twice as often, so that what both share,
# the start and reading the position, falls out of the difference.
# Proves and builds the program bench_movetext first, where that is not done yet.
set -euo pipefail
shopt -s inherit_errexit
times=${1:-200}
top=$(cd "$(dirname "$0")/.." && pwd)
crate=$top/crates/bench_movetext
command -v valgrind >/dev/null || {
    echo 'valgrind is not installed' >&2
    exit 1
}
(cd "$crate" && rt run -- mailbox match 1 >/dev/null </dev/null)
log=$(mktemp)
trap 'rm -f "$log"' EXIT

# The instructions of a run: a make of board, a mode, how many times, and the line of input.
instructions() {
    local make=$1 mode=$2 number=$3 line=$4
    valgrind --tool=callgrind --callgrind-out-file=/dev/null --log-file="$log" \
        "$crate/out/bench_movetext" "$make" "$mode" "$number" <<<"$line" >/dev/null
    awk '/Collected/ { print $NF }' "$log"
}

while IFS= read -r line; do
    for mode in match write; do
        for make in mailbox bitboard; do
            once=$(instructions "$make" "$mode" "$times" "$line")
            twice=$(instructions "$make" "$mode" $((2 * times)) "$line")
            echo "$mode ${line%% *} on $make: $(((twice - once) / times)) instructions a call"
        done
    done
done <"$crate/stdin"
