#!/usr/bin/env bash
# Counts the instructions of a wave of `mrjob play` that starts one split, its line read, its report written and a split
# completed: how many more a script of twice as many such waves takes, for each of them. Each wave goes on from the engine
# that the master keeps. The first cluster has one slot; in the great ones each worker has one. `mrjob serve` keeps of
# each wave also what an audit tells, but for `--no-audit`. It needs valgrind.
# usage: wave_counts.sh
set -euo pipefail
cd "$(dirname "$0")/.."
mrjob=${MRJOB:-bin/mrjob}
command -v valgrind > /dev/null || { echo "valgrind is missing" >&2; exit 1; }
room=$(mktemp -d)
trap 'rm -rf "$room"' EXIT

# The instructions of a script, which ends stuck.
counted() { # COMMAND KIND..
    local status=0
    bench/make_scripts.py "${@:2}" > "$room/script"
    valgrind --tool=callgrind --callgrind-out-file=/dev/null "$mrjob" $1 < "$room/script" > "$room/report" \
        2> "$room/said" || status=$?
    if [ "$status" -gt 1 ]; then echo "status $status" >&2; return 1; fi
    awk '/Collected/ { print $NF }' "$room/said"
}

write_row() { # NAME WAVES COMMAND KIND..
    local name=$1 waves=$2 few many
    shift 2
    few=$(counted "$@" "$waves")
    many=$(counted "$@" $((2 * waves)))
    echo "$name: $(((many - few) / waves)) instructions a wave"
}

for command in play serve "serve --no-audit"; do
    write_row "$command, 1,024 splits on 256 workers" 100 "$command" waves
    write_row "$command, 131,072 splits on 1,024 workers" 50 "$command" slots 131072 1024
    write_row "$command, 102,400 splits on 25,600 workers" 50 "$command" slots 102400 25600
done
