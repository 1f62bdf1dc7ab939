#!/usr/bin/env bash
# Times `saturate` beside plain successive shortest paths in C++ and LEMON's NetworkSimplex, on the same networks
# and in one run, and prints a table: the least of five calls each, and how many times the others' time it takes.
# It needs a C++ compiler and Debian's liblemon-dev.
set -euo pipefail
cd "$(dirname "$0")/.."
bench/needs_lemon
folder=$(mktemp -d)
trap 'rm -rf "$folder"' EXIT
g++ -std=c++17 -O2 -o "$folder/min_cost_flow" bench/min_cost_flow.cc -llemon
program=$(scripts/bench_program.py bench_saturate)
"$program" > "$folder/costs"
"$program" time > "$folder/saturate"

printf '%-10s %10s %10s %10s %10s %10s\n' network saturate plain lemon /plain /lemon
for name in a_racks a_direct b_racks d_racks f_racks; do
  "$program" "$name" > "$folder/network"
  "$folder/min_cost_flow" < "$folder/network" > "$folder/others"
  awk -v name="$name" '
    FILENAME ~ /saturate$/ && $1 == name { ours = $2 }
    FILENAME ~ /costs$/ && $1 == name ":" { cost = $NF }
    FILENAME ~ /others$/ { if ($2 != cost) bad = 1; spent[$1] = $3 }
    END {
      if (bad) { print name ": the costs differ"; exit 1 }
      printf "%-10s %7d us %7d us %7d us %10.2f %10.2f\n", name, ours, spent["plain"], spent["lemon"], ours / spent["plain"], ours / spent["lemon"]
    }' "$folder/saturate" "$folder/costs" "$folder/others"
done
