#!/usr/bin/env bash
# Times `mrjob plan` beside LEMON's NetworkSimplex over the network with racks, as many_splits.sh does, on the shapes of
# make_problems.py in four data centres: with 10,240 splits on 2,560 workers, and with 102,400 on 25,600. Of mrjob the
# time is the least of three. LEMON runs once, on some shapes for a minute. Where splits have barred pairs, LEMON's
# network has an arc for each of their workers, and it runs on the smaller size alone.
# usage: great_clusters.sh [SHAPE..]    all shapes where none is named
set -euo pipefail
cd "$(dirname "$0")/.."
. bench/beside_lemon

for times in 10 100; do
    splits=$((1024 * times)) workers=$((256 * times))
    echo "$splits splits, $workers workers"
    write_head
    for shape in ${*:-$(bench/make_problems.py)}; do
        bench/make_problems.py "$shape" "$splits" 4 "$workers" > "$room/text"
        least=() peak=()
        for _ in 1 2 3; do take ours "$mrjob" plan; done
        if [ "$times" = 10 ] || ! grep -qm 1 '^barred ' "$room/text"; then
            take theirs "$room/plan_by_lemon" racks
        fi
        write_row "$shape"
    done
done
