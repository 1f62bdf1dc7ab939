#!/usr/bin/env bash
# Times `mrjob plan` over both networks, the one with racks and the direct one, beside two C++ programs over
# the same networks: LEMON's NetworkSimplex, and plain successive shortest paths. Each is timed as a whole
# process that reads the same problem text. One table is printed: the least of five runs each, in microseconds
# (of fewer, once they have taken two seconds together), and how many times the others' time on the same
# network mrjob takes. All must answer the same count and cost. It needs a C++ compiler and Debian's liblemon-dev.
# usage: plan.sh [CENTRES]    with the racks in so many data centres, of one where none is given
set -euo pipefail
cd "$(dirname "$0")/.."
mrjob=${MRJOB:-bin/mrjob}
bench/needs_lemon
room=$(mktemp -d)
trap 'rm -rf "$room"' EXIT
g++ -std=c++17 -O2 -o "$room/plan_by_lemon" bench/plan_by_lemon.cc -llemon
g++ -std=c++17 -O2 -o "$room/plan_by_paths" bench/plan_by_paths.cc

run() { # PROGRAM NETWORK
    case "$1 $2" in
        mrjob*) "$mrjob" plan --network "$2" ;;
        lemon*) "$room/plan_by_lemon" "$2" ;;
        plain*) "$room/plan_by_paths" "$2" ;;
    esac
}

# The least time of a program on the text, in microseconds. Its answer must be that of all others.
least() { # PROGRAM NETWORK
    local start spent answer least= total=0
    for _ in 1 2 3 4 5; do
        start=${EPOCHREALTIME/./}
        run "$1" "$2" < "$room/text" > "$room/out" || return
        spent=$((${EPOCHREALTIME/./} - start))
        if [ -z "$least" ] || [ "$spent" -lt "$least" ]; then least=$spent; fi
        total=$((total + spent))
        if [ "$total" -gt 2000000 ]; then break; fi
    done
    answer=$(head -n 1 "$room/out")
    [ -e "$room/answer" ] || echo "$answer" > "$room/answer"
    if [ "$(cat "$room/answer")" != "$answer" ]; then
        echo "$shape: the answers differ: $(cat "$room/answer"), and by $1 over $2 $answer" >&2
        return 1
    fi
    echo "$least"
}

ratio() { # OURS THEIRS
    awk -v ours="$1" -v theirs="$2" 'BEGIN { printf "%.2f", ours / theirs }'
}

declare -A spent
printf '%-16s %17s %17s %17s %13s %13s\n' "" mrjob LEMON plain mrjob/LEMON mrjob/plain
line='%-16s %8s %8s %8s %8s %8s %8s %6s %6s %6s %6s   %s\n'
printf "$line" problem racks direct racks direct racks direct racks direct racks direct answer
for shape in $(bench/make_problems.py); do
    bench/make_problems.py "$shape" 1024 "${1:-1}" > "$room/text"
    rm -f "$room/answer"
    row=()
    for program in mrjob lemon plain; do
        for network in racks direct; do
            spent[$program $network]=$(least $program $network)
            row+=("${spent[$program $network]}")
        done
    done
    for program in lemon plain; do
        for network in racks direct; do
            row+=("$(ratio "${spent[mrjob $network]}" "${spent[$program $network]}")")
        done
    done
    printf "$line" "$shape" "${row[@]}" "$(cat "$room/answer")"
done
