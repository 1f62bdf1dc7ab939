#!/usr/bin/env bash
# Times `mrjob plan` over racks beside LEMON's NetworkSimplex over the same network, by size: splits from 128 to
# 1,024, and workers from 16 to 256. As in plan.sh each is a whole process, and both must answer the same count and
# cost. The two run in turn, and of each the time is the least of forty, in microseconds. It needs a C++ compiler and
# LEMON (Debian's liblemon-dev).
# usage: plan_sizes.sh [--plot PICTURE.svg]
set -euo pipefail
picture=
if [ "${1:-}" = --plot ]; then picture=$(realpath "$2"); fi
cd "$(dirname "$0")/.."
mrjob=${MRJOB:-bin/mrjob}
bench/needs_lemon
room=$(mktemp -d)
trap 'rm -rf "$room"' EXIT
g++ -std=c++17 -O2 -o "$room/plan_by_lemon" bench/plan_by_lemon.cc -llemon

# Runs a command on the text, leaves its answer in the room, and keeps its time if it is the least so far.
declare -A least
take_time() { # NAME COMMAND..
    local name=$1 start spent
    shift
    start=${EPOCHREALTIME/./}
    "$@" < "$room/text" > "$room/out"
    spent=$((${EPOCHREALTIME/./} - start))
    if [ "$spent" -lt "${least[$name]:-$((spent + 1))}" ]; then least[$name]=$spent; fi
    head -n 1 "$room/out" > "$room/$name"
}

line='%-14s %8s %8s %8s %8s %13s\n'
take_times() {
    printf "$line" problem splits workers mrjob LEMON mrjob/LEMON
    for shape in spread crowded; do
        for splits in 128 256 512 1024; do
            for workers in 16 64 256; do
                bench/make_problems.py $shape $splits 1 $workers > "$room/text"
                least=()
                for _ in {1..40}; do
                    take_time ours "$mrjob" plan --network racks
                    take_time theirs "$room/plan_by_lemon" racks
                done
                cmp "$room/ours" "$room/theirs"
                printf "$line" $shape $splits $workers "${least[ours]}" "${least[theirs]}" \
                    "$(awk -v a="${least[ours]}" -v b="${least[theirs]}" 'BEGIN { printf "%.2f", a / b }')"
            done
        done
    done
}

take_times | tee "$room/table"
if [ -n "$picture" ]; then
    bench/plot_sizes.py "mrjob plan beside LEMON's NetworkSimplex, $(date +%F)" < "$room/table" > "$picture"
fi
