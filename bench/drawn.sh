#!/usr/bin/env bash
# Counts the instructions that plans of drawn problems take (`make_problems.py drawn`), from the problem to a plan with its
# prices, beside those of LEMON's NetworkSimplex and CostScaling, from the problem to its least cost (CapacityScaling
# takes up to forty times as long). `mrjob check` must certify each plan. A line for each problem gives the millions of
# instructions and how many times the least of LEMON's mrjob takes, and the last lines the median of that and the worst
# five. See counted for what it needs.
# usage: drawn.sh [FIRST [LAST]]    the problems drawn from these seeds, 1 to 300 where none are given
set -euo pipefail
cd "$(dirname "$0")/.."
source bench/counted

line='%-6s %9s %9s %9s %7s   %s\n'
printf "$line" seed mrjob simplex scaling ratio answer
for ((seed = ${1:-1}; seed <= ${2:-300}; ++seed)); do
    bench/make_problems.py drawn "$seed" > "$room/text"
    rm -f "$room/answer"
    ours=$(by_mrjob search)
    check_answer
    simplex=$(by_lemon search)
    scaling=$(by_lemon search CostScaling)
    printf "$line" "$seed" "$ours" "$simplex" "$scaling" "$(ratio "$ours" "$simplex" "$scaling")" \
        "$(cat "$room/answer")" | tee -a "$room/rows"
done
sort -k 5 -n "$room/rows" | awk '
    { ratio[NR] = $5; row[NR] = $0 }
    END {
        middle = (ratio[int((NR + 1) / 2)] + ratio[int(NR / 2) + 1]) / 2
        printf "median %.3f of %d; the worst five:\n", middle, NR
        for (at = NR; at > 0 && at > NR - 5; --at) print row[at]
    }'
