#!/usr/bin/env bash
# Counts, for each point of docs/DESIGN-PASS.md, the places in src/ that a pattern finds; with 'list' as the first word it prints them.
# Run at the top of a checkout.
set -euo pipefail
how=${1:-count}

places() {
    local point=$1 pattern=$2
    local found
    found=$(grep -rnE "$pattern" crates/*/src --include='*.rt' | grep -vE '^[^:]*:[0-9]*: *//' || true)
    if [ "$how" = list ]; then
        echo "== $point"
        [ -z "$found" ] || echo "$found"
    else
        echo "$point: $([ -z "$found" ] && echo 0 || echo "$found" | wc -l)"
    fi
}

places '1 numbers for what an enum, an Option or a Result says' \
    'Option<Breach>|Option<Option<|promoted\(|number_of\(|piece_numbered\(|return 255|^ *255$|=> 255|map_or\(255|^    None,$|direction: (u8|usize)|\bd: usize|row: u8|\{ 0 \} else|else \{ 0 \}|None => (None|false|true|Err)|Some\(_?[a-z]*\) => (true|Err|Ok)|Err\(_\) =>|number < [234]0 '
places '2 functions that differ in a constant, a type or a callee' \
    'fn (pawns?|knights?|kings?|lift|place|castles_(short|long)|near|far|without_(check|equals|capture)|(rank|file)_mark|code_on|one_ahead|king_square|(king|queen)side_rook|(first|end)_rank|crossing_rank|(side|rights|en_passant)(_field)?|square|attack(s|ed)|checkmate|stalemate|moves_rook_too|steps_twice)[(<]|struct (Line|Digits)'
places '3 loops' '^\s*(for|while|loop)\b'
places '4 conversions by hand, and types with no equality' \
    'derive\((Clone, Copy|Drop)\)| as (u8|u16|u64|usize)\b|\.number\(\) [!=]= [a-z.]*number\(\)|fn (from_letter|letter|code|promoted|promotion_numbered|promotion|numbered|number|number_of|side_letter|turn|is_digit|is_gap|gap)\('
places '5 parameters that travel together' \
    '\(text: &\[u8\], (at|from): usize|words: &(mut )?\[u64; 12\]|board: &(mut )?B, setup: &Setup|line: &mut Line|codes: &\[u8; 64\], (side|square|from)|from: usize, to: usize|setup: &Setup, m: Move|(from|low): Square, (to|high): Square'
places '6 buffers with a length or a place beside them' '^ +(len|from): usize,|let mut line = \[0; 124\]|\(text: &\[u8\], (at|from): usize|\[self\.len|text\[at\]'
places '7 steps chosen by a name or a number' 'leap(er)?s\([0-9],|fn (without_(check|equals|capture)|(rank|file)_mark|lift|place)\('

echo "5 facts required by three functions or more: $(grep -rhoE 'requires( [a-z_]+)? \{.*\}' crates/*/src --include='*.rt' |
    sed -E 's/requires [a-z_]+ /requires /' | sort | uniq -c | awk '$1 >= 3 { n += $1 } END { print n + 0 }')"
echo "8 answers in proofs/: $(cat $(find crates/*/proofs -mindepth 2 -name Answers.antt) | grep -cE '^pub [^ ]+ : goal\.')"
echo "8 lines in proofs/: $(cat $(find crates/*/proofs -name '*.antt') | wc -l)"
