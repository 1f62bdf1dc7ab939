#!/usr/bin/env bash
# Times `map_split`, `merge` and `finish` beside two plain Rust programs that do the same, one by sorted pairs and one
# by hash maps, on the same text and in one run, and prints a table in milliseconds: of each the least of ten calls,
# and how many times the others' time ours takes. `covers` compares the texts of the eight results with those of the
# job, which the Rust programs do not: it has a row of its own, and counts in our total. The text has one document a
# line. It needs rustc.
# usage: words.sh [FILE]
set -euo pipefail
cd "$(dirname "$0")/.."
text=${1:-${XDG_CACHE_HOME:-$HOME/.cache}/mrjob-bench/words.txt}
if [ ! -e "$text" ]; then
    echo "there is no $text: bench/make_words.py $text makes one of packages that it downloads" >&2
    exit 1
fi
if ! command -v rustc > /dev/null; then
    echo "rustc is missing, which builds the programs to compare with" >&2
    exit 1
fi
folder=$(mktemp -d)
trap 'rm -rf "$folder"' EXIT
for name in sorted_pairs hash_map; do
    rustc -O --edition 2021 -o "$folder/$name" "bench/words_rust/$name.rs"
done
program=$(scripts/bench_program.py bench_words)

# The least times of ten calls, one call's lines beside another's.
least() {
  for call in $(seq 10); do
    "$@" time <"$text" >"$folder/call"
    head -n 1 "$folder/call" >>"$folder/counts"
    tail -n +2 "$folder/call" >"$folder/times$call"
  done
  paste "$folder"/times* |
    awk '{ least = $1; for (i = 2; i <= NF; i++) if ($i < least) least = $i; print least }'
}
# (the Rust programs have no `covers`)
without_covers() { awk 'NR == 3 { print 0 } { print }'; }
least "$program" >"$folder/ours"
least "$folder/sorted_pairs" | without_covers >"$folder/sorted"
least "$folder/hash_map" | without_covers >"$folder/hashed"
[ "$(sort -u "$folder/counts" | wc -l)" = 1 ] || { echo "the programs differ"; sort -u "$folder/counts"; exit 1; }
head -n 1 "$folder/counts"
printf 'map_split\nmerge\ncovers\nfinish\n' | paste - "$folder/ours" "$folder/sorted" "$folder/hashed" | awk '
  function row(name, ours, sorted, hashed) {
    if (!hashed) printf "%-10s %9.1f\n", name, ours / 1000
    else printf "%-10s %9.1f %13.1f %10.1f %9.2f %8.2f\n", name, ours / 1000, sorted / 1000, hashed / 1000, ours / sorted, ours / hashed
  }
  BEGIN { printf "%-10s %9s %13s %10s %9s %8s\n", "ms", "ours", "sorted pairs", "hash map", "/sorted", "/hash" }
  { row($1, $2, $3, $4); ours += $2; sorted += $3; hashed += $4 }
  END { row("total", ours, sorted, hashed) }'
