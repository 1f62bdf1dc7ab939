#!/usr/bin/env bash
# Counts the instructions that `mrjob plan` takes over racks on the shapes of make_problems.py, beside LEMON's: of whole
# processes, NetworkSimplex's; and from the problem to the plan or its least cost, the less of NetworkSimplex's and
# CostScaling's. Where `make library` has left lib/libmrjob.a, a call of mrjob_plan is counted too, from arrays to
# answer. One table is printed, of millions of instructions and of how many times LEMON's mrjob takes. See counted for
# what it needs.
# usage: plan_counts.sh [CENTRES]    with the racks in so many data centres, of one where none is given
set -euo pipefail
cd "$(dirname "$0")/.."
source bench/counted

if [ -e lib/libmrjob.a ]; then
    g++ -std=c++17 -O2 -Iinclude -o "$room/one_call" bench/one_call.cc lib/libmrjob.a
fi

line='%-17s %8s %8s %6s %8s %8s %8s %6s %8s %6s   %s\n'
printf "$line" problem mrjob LEMON ratio search simplex scaling ratio call ratio answer
for shape in $(bench/make_problems.py); do
    bench/make_problems.py "$shape" 1024 "${1:-1}" > "$room/text"
    rm -f "$room/answer"
    all=$(by_mrjob)
    check_answer
    lemon=$(by_lemon all)
    search=$(by_mrjob search)
    simplex=$(by_lemon search)
    scaling=$(by_lemon search CostScaling)
    call=- times=-
    if [ -e "$room/one_call" ]; then
        call=$(counted mrjob_plan "$room/one_call")
        times=$(ratio "$call" "$simplex" "$scaling")
    fi
    printf "$line" "$shape" "$all" "$lemon" "$(ratio "$all" "$lemon")" "$search" "$simplex" "$scaling" \
        "$(ratio "$search" "$simplex" "$scaling")" "$call" "$times" "$(cat "$room/answer")"
done
