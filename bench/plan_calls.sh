#!/usr/bin/env bash
# Times calls of the C library, from arrays to answer, beside LEMON's algorithms for minimum cost flows on the same
# problems, their graph built too, and beside scipy's linear_sum_assignment from Python, where a python3 has scipy.
# The problems are those of plan.sh, over racks. One table is printed: the least microseconds of forty calls, in turn,
# of CapacityScaling of three, of scipy of five; and how many times the time of LEMON's best algorithm mrjob_plan
# takes. All must answer the same count and cost. It needs a C++ compiler, Debian's liblemon-dev, and lib/ as
# `make library` leaves it.
# usage: plan_calls.sh [CENTRES]    with the racks in so many data centres, of one where none is given
set -euo pipefail
cd "$(dirname "$0")/.."
bench/needs_lemon
[ -e lib/libmrjob.a ] || { echo "lib/libmrjob.a is missing: make library makes it" >&2; exit 1; }
room=$(mktemp -d)
trap 'rm -rf "$room"' EXIT
g++ -std=c++17 -O2 -Iinclude -o "$room/plan_calls" bench/plan_calls.cc lib/libmrjob.a -llemon
python=
for it in python3 /usr/bin/python3; do
    if "$it" -c 'import scipy' 2> /dev/null; then python=$it; break; fi
done

line='%-16s %8s %8s %8s %8s %8s %10s %8s %8s   %s\n'
printf "$line" problem plan check simplex scaling capacity plan/LEMON Python scipy answer
for shape in $(bench/make_problems.py); do
    bench/make_problems.py "$shape" 1024 "${1:-1}" > "$room/text"
    read -r starts cost plan check simplex scaling capacity < <("$room/plan_calls" racks < "$room/text")
    best=$(printf '%s\n' "$simplex" "$scaling" "$capacity" | sort -n | head -n 1)
    ratio=$(awk -v ours="$plan" -v theirs="$best" 'BEGIN { printf "%.2f", ours / theirs }')
    ours=- theirs=-
    if [ -n "$python" ]; then read -r ours theirs < <("$python" bench/plan_calls.py "$cost" < "$room/text"); fi
    printf "$line" "$shape" "$plan" "$check" "$simplex" "$scaling" "$capacity" "$ratio" "$ours" "$theirs" \
        "$starts $cost"
done
