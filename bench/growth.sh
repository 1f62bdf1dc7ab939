#!/usr/bin/env bash
# How the time of a call of mrjob_plan over racks grows with the arcs of its network: splits from 128 to 1,024, workers
# from 16 to 256 (where slots are just enough, a quarter of the splits), racks in 1 to 8 data centres. A line a size has
# the arcs and the least microseconds of forty calls; then one a shape has the nanoseconds an arc at its fewest and at
# its most arcs, and the slope of the straight line through the logarithms of the times over those of the arcs, by least
# squares: at 1 the time is as the arcs. It needs a C++ compiler and lib/ as `make library` leaves it.
# usage: growth.sh [SHAPE..]    of those of make_problems.py; spread, crowded and just_enough where none is given
set -euo pipefail
cd "$(dirname "$0")/.."
command -v g++ > /dev/null || { echo "g++ is missing" >&2; exit 1; }
[ -e lib/libmrjob.a ] || { echo "lib/libmrjob.a is missing: make library makes it" >&2; exit 1; }
room=$(mktemp -d)
trap 'rm -rf "$room"' EXIT
g++ -std=c++17 -O2 -Iinclude -o "$room/growth" bench/growth.cc lib/libmrjob.a
if [ $# = 0 ]; then set -- spread crowded just_enough; fi

line='%-14s %8s %8s %8s %8s %12s\n'
sizes() { # SHAPE
    local splits workers centres arcs spent
    for splits in 128 256 512 1024; do
        for workers in 16 64 256; do
            if [ "$1" = just_enough ] && [ "$workers" != 16 ]; then continue; fi
            if [ "$1" = just_enough ]; then workers=$((splits / 4)); fi
            for centres in 1 2 4 8; do
                bench/make_problems.py "$1" "$splits" "$centres" "$workers" > "$room/text"
                read -r arcs spent < <("$room/growth" < "$room/text")
                printf "$line" "$1" "$splits" "$workers" "$centres" "$arcs" "$spent"
            done
        done
    done
}

printf "$line" shape splits workers centres arcs microseconds
for shape in "$@"; do sizes "$shape"; done | tee "$room/table"
awk '
    { x = log($5); y = log($6); n[$1]++; sx[$1] += x; sy[$1] += y; sxx[$1] += x * x; sxy[$1] += x * y }
    !($1 in few) || $5 < few[$1] { few[$1] = $5; at_few[$1] = $6 }
    !($1 in most) || $5 > most[$1] { most[$1] = $5; at_most[$1] = $6 }
    END {
        for (s in n) {
            slope = (n[s] * sxy[s] - sx[s] * sy[s]) / (n[s] * sxx[s] - sx[s] * sx[s])
            printf "%-14s %d arcs %.0f ns an arc, %d arcs %.0f ns an arc, slope %.2f\n", s, few[s],
                1000 * at_few[s] / few[s], most[s], 1000 * at_most[s] / most[s], slope
        }
    }' "$room/table" | sort
