#!/usr/bin/env bash
# Times `mrjob plan` beside LEMON's NetworkSimplex over the network with racks, on the shapes of make_problems.py with
# 131,072 splits on 256 workers, or fewer, in four data centres: whole processes. Both must answer the same count and
# cost. The two run in turn, and of each the time is the least of three, in milliseconds; memory is the peak, in MiB.
# LEMON takes minutes for all shapes. It needs a C++ compiler, LEMON (Debian's liblemon-dev) and GNU time.
# usage: many_splits.sh [SHAPE..]    all shapes where none is named
set -euo pipefail
cd "$(dirname "$0")/.."
. bench/beside_lemon

write_head
for shape in ${*:-$(bench/make_problems.py)}; do
    bench/make_problems.py "$shape" 131072 4 256 > "$room/text"
    least=() peak=()
    for _ in 1 2 3; do
        take ours "$mrjob" plan
        take theirs "$room/plan_by_lemon" racks
    done
    write_row "$shape"
done
